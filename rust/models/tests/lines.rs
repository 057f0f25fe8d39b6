//! What the assembler writes, against bytes written by hand from document 01.
#![forbid(unsafe_code)]

use models::assemble;

/// The bytes of a thread with these lines, among locations x, y and 5 values, without the header and the TH record.
fn lines(text: &str) -> Vec<u8> {
    let model = format!("values 5\nlocations x y\nthread\n{text}");
    let bytes = assemble(model.as_bytes()).unwrap_or_else(|mistake| panic!("{model}\n{mistake}"));
    assert_eq!(bytes[..7], *b"PR\x01\x02\x05TH");
    assert_eq!(usize::from(bytes[7]) * 7, bytes.len() - 8);
    bytes[8..].to_vec()
}

fn record(fields: [u8; 5]) -> Vec<u8> {
    [b"IN".as_slice(), &fields].concat()
}

#[test]
fn store_buffering_has_the_bytes_of_document_01() {
    let text = "# store buffering
values 2
locations x y
thread
  x := 1
  r0 := y
thread
  y := 1
  r0 := x
";
    let bytes = [
        b"PR\x02\x02\x02TH\x02IN\x05\x00\x00\x01\x00IN\x06\x00\x01\x00\x00".as_slice(),
        b"TH\x02IN\x05\x00\x01\x01\x00IN\x06\x00\x00\x00\x00",
    ];
    assert_eq!(assemble(text.as_bytes()), Ok(bytes.concat()));
}

#[test]
fn each_kind_of_line_has_its_op_and_fields() {
    for (text, fields) in [
        ("r0 := r1 + 1", [1, 0, 0, 129, 1]),
        ("r3 := 4 + r3", [1, 3, 0, 4, 131]),
        ("r0 := r1 = 2", [2, 0, 0, 129, 2]),
        ("r1 := 3 = 0", [2, 1, 0, 3, 0]),
        ("r0 := r1 < 2", [3, 0, 0, 129, 2]),
        ("r2 := r0 < r1", [3, 2, 0, 128, 129]),
        ("x := 1", [5, 0, 0, 1, 0]),
        ("y := r0", [5, 0, 1, 128, 0]),
        ("r0 := x", [6, 0, 0, 0, 0]),
        ("r3 := y", [6, 3, 1, 0, 0]),
        ("r0 := FADD(x, 1)", [7, 0, 0, 1, 0]),
        ("r2 := FADD(y, r3)", [7, 2, 1, 131, 0]),
        ("r0 := CAS(x, 0 -> 1)", [8, 0, 0, 0, 1]),
        ("r1 := CAS(y, r2 -> r3)", [8, 1, 1, 130, 131]),
        ("wait(x = 1)", [9, 0, 0, 1, 0]),
        ("wait(y = r1)", [9, 0, 1, 129, 0]),
        ("BCAS(x, 0 -> 1)", [10, 0, 0, 0, 1]),
        ("BCAS(y, r0 -> 4)", [10, 0, 1, 128, 4]),
        ("fence", [11, 0, 0, 0, 0]),
    ] {
        assert_eq!(lines(text), record(fields), "{text}");
    }
}

#[test]
fn an_operand_alone_is_its_sum_with_0() {
    assert_eq!(lines("r0 := 1"), lines("r0 := 1 + 0"));
    assert_eq!(lines("r0 := r1"), lines("r0 := r1 + 0"));
}

#[test]
fn a_jump_goes_to_the_line_of_its_label() {
    let read = record([6, 0, 0, 0, 0]);
    let expect = |text: &str, target, after: usize| {
        let before = if target == 0 || after > 0 { vec![] } else { read.clone() };
        let jump = record([4, 0, target, 128, 0]);
        assert_eq!(lines(text), [before, jump, read.repeat(after)].concat(), "{text}");
    };
    expect("again: if r0 goto again", 0, 0);
    expect("again:\n  if r0 goto again\n", 0, 0);
    expect("r0 := x\nagain: if r0 goto again", 1, 0);
    expect("if r0 goto skip\n r0 := x\nskip:\n r0 := x", 2, 2);
    expect("if r0 goto end\nr0 := x\nr0 := x\nend:", 3, 2);
    expect("if r0 goto two\none: two:\nthree: r0 := x", 1, 1);
}

#[test]
fn labels_belong_to_their_thread() {
    let text =
        "values 2\nlocations x\nthread\nagain: if 1 goto again\nthread\nr0 := x\nagain: if 1 goto again\n";
    let first = b"PR\x02\x01\x02TH\x01IN\x04\x00\x00\x01\x00".as_slice();
    let second = b"TH\x02IN\x06\x00\x00\x00\x00IN\x04\x00\x01\x01\x00".as_slice();
    assert_eq!(assemble(text.as_bytes()), Ok([first, second].concat()));
}

#[test]
fn blanks_comments_and_line_ends_change_nothing() {
    let plain = assemble(b"values 2\nlocations x y\nthread\nx := 1\nend:\nthread\n");
    assert!(plain.is_ok());
    for text in [
        "values 2\nlocations x y\nthread\nx := 1\nend:\nthread",
        "\n\n# ü\nvalues 2 # two\n\nlocations x y\n#\nthread\n\n\tx:=1#one\n\n end :\n\nthread\n\n",
        "values 2\r\nlocations x y\r\nthread\r\nx := 1\r\nend:\r\nthread\r\n",
    ] {
        assert_eq!(assemble(text.as_bytes()), plain, "{text}");
    }
}

#[test]
fn the_limits_themselves_are_allowed() {
    let lines = "b := r3\n".repeat(64);
    let threads = format!("thread\n{lines}").repeat(8);
    let text = format!("values 16\nlocations a b c d e f g h\n{threads}");
    let bytes = assemble(text.as_bytes()).expect("a model at every limit");
    assert_eq!(bytes.len(), 5 + 8 * (3 + 64 * 7));
    assert_eq!(bytes[..15], *b"PR\x08\x08\x10TH\x40IN\x05\x00\x01\x83\x00");
    assert!(program::read(&bytes).is_ok());
}

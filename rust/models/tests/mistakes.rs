//! What the assembler says of a model with a mistake: the place, what was expected and what was found.
#![forbid(unsafe_code)]

use std::time::{Duration, Instant};

use models::{assemble, Mistake};
use program::limits::LONGEST_INPUT;

/// The message, with line and column in front and without a hint: the tests in `hints` are about these.
fn message(text: &str) -> String {
    match assemble(text.as_bytes()) {
        Ok(bytes) => panic!("{text}\nwas assembled to {bytes:?}"),
        Err(mistake) => Mistake { hint: None, ..mistake }.to_string(),
    }
}

#[track_caller]
fn expect(text: &str, expected: &str) {
    assert_eq!(message(text), expected, "{text}");
}

/// The message for one line, the fourth, of a thread among locations x and y and 3 values.
#[track_caller]
fn expect_line(line: &str, expected: &str) {
    expect(&format!("values 3\nlocations x y\nthread\n{line}\n"), expected);
}

const OPERAND: &str = "a value from 0 to 2 or a register (r0 to r3)";
const START: &str =
    "a line that starts with a register (r0 to r3), a location (x, y), 'if', 'goto', 'wait', 'BCAS' or 'fence'";

#[test]
fn a_header_comes_first() {
    expect("", "1:1: expected 'values', found the end of the file");
    expect("# nothing\n", "2:1: expected 'values', found the end of the file");
    expect("locations x\n", "1:1: expected 'values', found 'locations'");
    expect("values 2\nthread\n", "2:1: expected 'locations', found 'thread'");
    expect("values 2\nlocations x\n", "3:1: expected 'thread', found the end of the file");
    expect("values 2\nlocations x\nx := 1\n", "3:1: expected 'thread', found 'x'");
    expect("values 2 locations x", "1:10: expected the end of the line, found 'locations'");
}

#[test]
fn values_are_2_to_16() {
    let rest = "\nlocations x\nthread\n";
    for (found, shown) in [("1", "'1'"), ("17", "'17'"), ("999999999999999999999", "'999999999999999999999'")]
    {
        let expected = format!("1:8: expected a number from 2 to 16, found {shown}");
        expect(&format!("values {found}{rest}"), &expected);
    }
    expect(&format!("values x{rest}"), "1:8: expected a number from 2 to 16, found 'x'");
    expect(&format!("values{rest}"), "1:7: expected a number from 2 to 16, found the end of the line");
    expect("values", "1:7: expected a number from 2 to 16, found the end of the file");
    expect(&format!("values 2 3{rest}"), "1:10: expected the end of the line, found '3'");
}

#[test]
fn locations_are_1_to_16_new_names() {
    let header = |locations: &str| format!("values 2\nlocations{locations}\nthread\n");
    expect(&header(""), "2:10: expected a name for a location, found the end of the line");
    expect(&header(" 7"), "2:11: expected a name for a location, found '7'");
    expect(&header(" x, y"), "2:12: expected the end of the line, found ','");
    expect(
        &header(" x y x"),
        "2:15: expected a name for a location, found 'x', the name of a location on line 2",
    );
    expect(&header(" x goto"), "2:13: expected a name for a location, found 'goto', a word of the language");
    expect(&header(" x r0"), "2:13: expected a name for a location, found 'r0', kept for registers");
    expect(&header(" r17"), "2:11: expected a name for a location, found 'r17', kept for registers");
    let most = " a b c d e f g h i j k l m n o p";
    assert!(assemble(header(most).as_bytes()).is_ok());
    let message = "2:43: expected the end of the line after 16 locations, found 'q'";
    expect(&header(&format!("{most} q")), message);
    expect(&header(&format!("{most} a")), &message.replace("'q'", "'a'"));
    assert!(assemble(header(" r rx r_0 If").as_bytes()).is_ok());
}

#[test]
fn threads_are_1_to_8_of_at_most_64_lines() {
    let header = "values 2\nlocations x\n";
    let nine = format!("{header}{}", "thread\n".repeat(9));
    expect(&nine, "11:1: expected the end of the file after 8 threads, found 'thread'");
    let long = format!("{header}thread\n{}", "  x := 1\n".repeat(65));
    expect(&long, "68:3: expected the end of the thread after 64 lines, found 'x'");
    // The rest of the 65th line does not count.
    let worse = format!("{header}thread\n{}  again: nonsense", "x := 1\n".repeat(64));
    expect(&worse, "68:10: expected the end of the thread after 64 lines, found 'nonsense'");
    expect(&format!("{header}thread x\n"), "3:8: expected the end of the line, found 'x'");
    let labelled = format!("{header}thread\nend: thread\n");
    expect(&labelled, &format!("4:6: expected {}, found 'thread'", START.replace("x, y", "x")));
}

#[test]
fn a_line_starts_with_a_register_a_location_or_a_word() {
    for (line, found) in [
        ("z := 1", "'z'"),
        ("r4 := 1", "'r4'"),
        ("r00 := 1", "'r00'"),
        ("1 := x", "'1'"),
        (":= x", "':='"),
        ("CAS(x, 0 -> 1)", "'CAS'"),
        ("FADD(x, 1)", "'FADD'"),
        ("values 3", "'values'"),
        ("again", "'again'"),
        ("@", "'@'"),
        ("é", "'é'"),
    ] {
        expect_line(line, &format!("4:1: expected {START}, found {found}"));
    }
}

#[test]
fn assignments() {
    expect_line("x", "4:2: expected ':=', found the end of the line");
    expect_line("x = 1", "4:3: expected ':=', found '='");
    expect_line("r0 : = x", "4:1: expected a name for a label, found 'r0', kept for registers");
    expect_line("x := 3", &format!("4:6: expected {OPERAND}, found '3'"));
    expect_line("x := 256", &format!("4:6: expected {OPERAND}, found '256'"));
    expect_line("x := r4", &format!("4:6: expected {OPERAND}, found 'r4'"));
    expect_line("x := y", &format!("4:6: expected {OPERAND}, found 'y'"));
    expect_line("x :=", &format!("4:5: expected {OPERAND}, found the end of the line"));
    expect_line("x := 1 + 1", "4:8: expected the end of the line, found '+'");
    expect_line("x := 1; y := 1", "4:7: expected the end of the line, found ';'");
    let right = "a value from 0 to 2, a register (r0 to r3), a location (x, y), 'FADD' or 'CAS'";
    expect_line("r0 := z", &format!("4:7: expected {right}, found 'z'"));
    expect_line("r0 := 3", &format!("4:7: expected {right}, found '3'"));
    expect_line("r0 := BCAS(x, 0 -> 1)", &format!("4:7: expected {right}, found 'BCAS'"));
    expect_line("r0 := x + 1", "4:9: expected the end of the line, found '+'");
    expect_line("r0 := 1 + x", &format!("4:11: expected {OPERAND}, found 'x'"));
    expect_line("r0 := 1 - 1", "4:9: expected the end of the line, found '-'");
    expect_line("r0 := 1 + 1 + 1", "4:13: expected the end of the line, found '+'");
    expect_line("r0 := 1 < 9", &format!("4:11: expected {OPERAND}, found '9'"));
    expect_line("r0 := 1 = # 1", &format!("4:14: expected {OPERAND}, found the end of the line"));
}

#[test]
fn accesses_with_brackets() {
    let location = "a location (x, y)";
    expect_line("wait x = 1", "4:6: expected '(', found 'x'");
    expect_line("wait(1 = x)", &format!("4:6: expected {location}, found '1'"));
    expect_line("wait(x := 1)", "4:8: expected '=', found ':='");
    expect_line("wait(x = 3)", &format!("4:10: expected {OPERAND}, found '3'"));
    expect_line("wait(x = 1", "4:11: expected ')', found the end of the line");
    expect_line("wait(x = 1))", "4:12: expected the end of the line, found ')'");
    expect_line("BCAS(z, 0 -> 1)", &format!("4:6: expected {location}, found 'z'"));
    expect_line("BCAS(x 0 -> 1)", "4:8: expected ',', found '0'");
    expect_line("BCAS(x, 0, 1)", "4:10: expected '->', found ','");
    expect_line("BCAS(x, 0 - 1)", "4:11: expected '->', found '-'");
    expect_line("r0 := CAS(x, 0 -> 3)", &format!("4:19: expected {OPERAND}, found '3'"));
    expect_line("r0 := CAS(x, 0 -> 1", "4:20: expected ')', found the end of the line");
    expect_line("r0 := FADD x", "4:12: expected '(', found 'x'");
    expect_line("r0 := FADD(r0, 1)", &format!("4:12: expected {location}, found 'r0'"));
    expect_line("r0 := FADD(x)", "4:13: expected ',', found ')'");
    expect_line("r0 := FADD(x, 1 -> 2)", "4:17: expected ')', found '->'");
}

#[test]
fn a_fence_is_a_word_alone_on_its_line() {
    expect_line("fence()", "4:6: expected the end of the line, found '('");
    expect_line("fence x", "4:7: expected the end of the line, found 'x'");
    expect_line("fence := 1", "4:7: expected the end of the line, found ':='");
    expect_line("wait(fence = 1)", "4:6: expected a location (x, y), found 'fence'");
    expect_line("x := fence", &format!("4:6: expected {OPERAND}, found 'fence'"));
    expect_line("Fence", &format!("4:1: expected {START}, found 'Fence'"));
}

#[test]
fn nothing_has_the_name_of_a_fence() {
    let taken = "found 'fence', a word of the language";
    let header = |line: &str| format!("values 2\n{line}\nthread\n");
    expect(&header("locations x fence"), &format!("2:13: expected a name for a location, {taken}"));
    let constant = header("constants fence = 1\nlocations x");
    expect(&constant, &format!("2:11: expected a name for a constant, {taken}"));
    let register = header("locations x\nregisters fence = r1");
    expect(&register, &format!("3:11: expected a name for a register, {taken}"));
    expect_line("fence: x := 1", &format!("4:1: expected a name for a label, {taken}"));
    assert!(assemble(header("locations Fence fences f\nconstants FENCE = 1").as_bytes()).is_ok());
}

/// The assembler says so, and leaves no program to the checker that it would refuse.
#[test]
fn a_fence_needs_room_for_its_location() {
    let model = |locations: &str, lines: &str| format!("values 2\nlocations {locations}\nthread\n{lines}\n");
    let most = "a b c d e f g h i j k l m n o";
    assert!(assemble(model(most, "fence").as_bytes()).is_ok());
    let all = format!("{most} p");
    assert!(assemble(model(&all, "p := 1").as_bytes()).is_ok());
    let message = "expected at most 15 locations beside a fence, found 16";
    expect(&model(&all, "  fence"), &format!("4:3: {message}"));
    expect(&model(&all, "p := 1\nthread\n q: fence\nfence"), &format!("6:5: {message}"));
}

#[test]
fn jumps_and_labels() {
    let label = "a label of this thread";
    expect_line("if r0 goto again", &format!("4:12: expected {label}, which has none, found 'again'"));
    expect_line("goto x", &format!("4:6: expected {label}, which has none, found 'x'"));
    expect_line("b: goto c\na:", &format!("4:9: expected {label} (b, a), found 'c'"));
    expect_line("goto", &format!("4:5: expected {label}, found the end of the line"));
    expect_line("if r0 goto 3", &format!("4:12: expected {label}, found '3'"));
    expect_line("if r0 goto\n x := 1", &format!("4:11: expected {label}, found the end of the line"));
    expect_line("if r0 goto again again", "4:18: expected the end of the line, found 'again'");
    expect_line("if r0 again", "4:7: expected 'goto', found 'again'");
    expect_line("if x goto again", &format!("4:4: expected {OPERAND}, found 'x'"));
    expect_line("if r0 < 2 goto again", "4:7: expected 'goto', found '<'");
    expect_line("a: if 1 goto b\nthread\nb:", &format!("4:14: expected {label} (a), found 'b'"));
    let name = "expected a name for a label, found";
    expect_line("a:\n x := 1\n a:", &format!("6:2: {name} 'a', the name of a label on line 4"));
    expect_line("a: x:", &format!("4:4: {name} 'x', the name of a location on line 2"));
    expect_line("if:", &format!("4:1: {name} 'if', a word of the language"));
    expect_line("r9:", &format!("4:1: {name} 'r9', kept for registers"));
    expect_line("7:", &format!("4:1: expected {START}, found '7'"));
}

#[test]
fn a_long_list_of_labels_is_cut() {
    let labels: Vec<_> = (0..17).map(|number| format!("L{number}")).collect();
    let shown = format!("({}, ..)", labels[..16].join(", "));
    let line = format!("{}: goto end", labels.join(": "));
    let column = line.chars().count() - 2;
    expect_line(&line, &format!("4:{column}: expected a label of this thread {shown}, found 'end'"));
}

#[test]
fn a_list_of_all_locations_is_whole() {
    let names = "a b c d e f g h i j k l m n o p";
    let shown = names.replace(' ', ", ");
    expect(
        &format!("values 2\nlocations {names}\nthread\nwait(q = 1)\n"),
        &format!("4:6: expected a location ({shown}), found 'q'"),
    );
}

#[test]
fn a_long_word_is_cut() {
    let cut = |letter: &str| format!("{}..", letter.repeat(40));
    let (a, b, digits) = ("a".repeat(3_000), "b".repeat(3_000), "9".repeat(3_000));
    expect_line(&format!("{a} := 1"), &format!("4:1: expected {START}, found '{}'", cut("a")));
    expect_line(&format!("x := {digits}"), &format!("4:6: expected {OPERAND}, found '{}'", cut("9")));
    let whole = "a".repeat(40);
    expect_line(&whole, &format!("4:1: expected {START}, found '{whole}'"));
    expect_line(
        &format!("{a}:\n{a}:"),
        &format!("5:1: expected a name for a label, found '{}', the name of a label on line 4", cut("a")),
    );
    expect_line(
        &format!("{a}: goto {b}"),
        &format!("4:3008: expected a label of this thread ({}), found '{}'", cut("a"), cut("b")),
    );
}

#[test]
fn places_count_characters() {
    expect_line("\tx := 1 # äöü\n  é", &format!("5:3: expected {START}, found 'é'"));
    expect_line("x := 1 \u{e9}", "4:8: expected the end of the line, found 'é'");
}

/// Names are found without going through all of them, which would take much longer than this.
#[test]
fn a_text_of_nothing_but_labels_is_read_at_once() {
    let start = Instant::now();
    let labels: String = (0..120_000).map(|number| format!("L{number}:")).collect();
    assert!(labels.len() > LONGEST_INPUT / 2);
    assert!(assemble(format!("values 2\nlocations x\nthread\n{labels}\n goto L119999").as_bytes()).is_ok());
    let text = format!("values 2\nlocations x\nthread\n{labels}\n goto M119999");
    assert!(message(&text).ends_with("L15, ..), found 'M119999'"));
    assert!(start.elapsed() < Duration::from_secs(10));
}

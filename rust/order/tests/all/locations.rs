//! Models of up to sixteen locations.

use models::assemble;

use crate::user::{ends, ends_quietly, run};

/// A model of sixteen locations, from a to p, with these threads.
fn sixteen(threads: &str) -> String {
    format!("values 2\nlocations a b c d e f g h i j k l m n o p\n{threads}")
}

/// Store buffering on locations 9 and 15.
fn store_buffering() -> String {
    sixteen("thread\n  j := 1\n  r0 := p\nthread\n  p := 1\n  r0 := j\n")
}

#[test]
fn a_report_names_locations_up_to_15() {
    let lines = "NR 7 3 2 R 9 0\nST 1 W 9 1\nST 1 R 15 0\nST 2 W 15 1\n";
    let text = store_buffering();
    ends_quietly(&run(&["-"], text.as_bytes()), 10, lines);
    let bytes = assemble(text.as_bytes()).unwrap();
    ends_quietly(&run(&["-"], &bytes), 10, lines);
    // A place of two threads and sixteen locations has 1,255 bytes.
    ends_quietly(&run(&["--table", "8785", "-"], &bytes), 10, lines);
    ends(&run(&["--table", "8784", "-"], &bytes), 11, "FU 6\n");
}

#[test]
fn an_explanation_names_them_as_the_text_does_or_as_the_disassembler() {
    let text = store_buffering();
    let explained = |input: &[u8]| {
        let output = run(&["--explain", "-"], input);
        assert_eq!(output.status.code(), Some(10));
        String::from_utf8(output.stdout).unwrap()
    };
    for (input, [one, other]) in
        [(text.clone().into_bytes(), ["j", "p"]), (assemble(text.as_bytes()).unwrap(), ["p", "g"])]
    {
        let words = explained(&input);
        for part in [format!("reads {one} = 0 (starting value)"), format!("writes {other} = 1")] {
            assert!(words.contains(&part), "{part}\n{words}");
        }
    }
}

#[test]
fn what_a_wait_finds_in_location_15_is_seen() {
    let model = sixteen("thread\n  wait(p = 1)\n  o := 1\nthread\n  p := 1\n");
    ends_quietly(&run(&["-"], model.as_bytes()), 0, "RB 4\n");
    let said = ends(&run(&["-"], model.replace("  p := 1", "  o := 1").as_bytes()), 0, "RB 2\n");
    assert!(said.contains("a thread waits for ever at line 4"), "{said}");
}

#[test]
fn seventeen_locations_are_refused_with_their_place() {
    let text = store_buffering().replace("o p\n", "o p q\n");
    let said = ends(&run(&["-"], text.as_bytes()), 1, "");
    assert_eq!(said, "standard input:2:43: expected the end of the line after 16 locations, found 'q'\n");
    let mut bytes = assemble(store_buffering().as_bytes()).unwrap();
    bytes[3] = 17;
    let said = ends(&run(&["-"], &bytes), 1, "NO 2\n");
    assert!(said.contains("T must be 1 to 8, L 1 to 16 and K 2 to 16"), "{said}");
}

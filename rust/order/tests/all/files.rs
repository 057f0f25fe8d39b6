//! What is read, and what is said of one file and of several.

use std::fs;

use models::collection::{self, Verdict};

use crate::user::{ends, ends_quietly, finish, folder, models, order, run, SB, SB_LINES};

const MP: &str = "RB 13\n";

#[test]
fn a_text_and_its_bytes_get_the_same_report() {
    ends_quietly(&run(&["sb.order"], b""), 10, SB_LINES);
    ends_quietly(&run(&["mp.order"], b""), 0, MP);
    ends_quietly(&run(&["-"], SB), 10, SB_LINES);
    ends_quietly(&run(&["/dev/stdin"], SB), 10, SB_LINES);
    ends_quietly(&run(&["-"], &fs::read(models().join("sb.order")).unwrap()), 10, SB_LINES);
    let folder = folder("bytes");
    fs::write(folder.join("sb"), SB).unwrap();
    ends_quietly(&finish(order().current_dir(&folder).args(["--", "sb"]), b""), 10, SB_LINES);
}

#[test]
fn what_is_no_program_gets_its_number_and_words() {
    for (bytes, number, words) in [
        (&b"PR"[..], 1, "the input must start with a whole PR record\n"),
        (b"v\0", 1, "(it has a byte 0, and so was not taken for text)"),
        (b"PR\x09\x01\x02TH\x00", 2, "T must be 1 to 8"),
        (b"PR\x01\x01\x02TH\x00\n", 9, "must end after the last record"),
    ] {
        let said = ends(&run(&["-"], bytes), 1, &format!("NO {number}\n"));
        assert!(said.starts_with(&format!("order: standard input: no program: check {number}")), "{said}");
        assert!(said.contains(words), "{said}");
    }
}

#[test]
fn a_mistake_has_its_place_and_no_report() {
    let said = ends(&run(&["-"], b"values 2\nlocations x\nthread\n  y := 1\n"), 1, "");
    assert!(said.starts_with("standard input:4:3: expected a line that starts with"), "{said}");
    let said = ends(&run(&["-"], b""), 1, "");
    assert!(said.starts_with("standard input:1:1: expected 'values', found the end of the file"), "{said}");
    for file in ["missing.order", "."] {
        let said = ends(&run(&[file], b""), 1, "");
        assert!(said.starts_with(&format!("order: {file}: ")), "{said}");
    }
}

#[test]
fn an_input_that_is_too_long_is_refused_at_once() {
    let said = ends(&run(&["/dev/zero"], b""), 1, "");
    assert!(said.starts_with("order: /dev/zero: longer than 1 MiB"), "{said}");
}

#[test]
fn several_files_get_a_line_each_and_the_worst_status() {
    let sb = "sb.order: NR 7 3 2 R 0 0\n";
    ends_quietly(&run(&["mp.order", "mp.order"], b""), 0, "mp.order: RB 13\nmp.order: RB 13\n");
    ends_quietly(&run(&["sb.order", "mp.order"], b""), 10, &format!("{sb}mp.order: RB 13\n"));
    let full = ["--table", "100", "mp.order", "empty-thread.order"];
    ends(&run(&full, b""), 11, "mp.order: FU 1\nempty-thread.order: RB 1\n");
    ends(&run(&["--table", "600", "mp.order", "sb.order"], b""), 10, &format!("mp.order: FU 9\n{sb}"));
    let said =
        ends(&run(&["sb.order", "missing.order", "-"], b"PR"), 1, &format!("{sb}standard input: NO 1\n"));
    assert!(said.contains("order: missing.order: "), "{said}");
}

#[test]
fn a_name_is_one_line_whatever_is_in_it() {
    let folder = folder("names");
    let names = ["-x.order", "a b.order", "RB 3\nx: RB 1.order", "ä\u{7}.order"];
    for name in names {
        fs::copy(models().join("sb.order"), folder.join(name)).unwrap();
    }
    let output = finish(order().current_dir(&folder).arg("--").args(names), b"");
    let shown = ["-x.order", "a b.order", "RB 3\\nx: RB 1.order", "ä\\u{7}.order"];
    ends_quietly(&output, 10, &shown.map(|name| format!("{name}: NR 7 3 2 R 0 0\n")).concat());
}

#[test]
fn an_expectation_is_met_or_not() {
    ends_quietly(&run(&["--expect", "mp.order"], b""), 0, "mp.order: RB 13, as expected\n");
    let lines = "sb.order: NR 7 3 2 R 0 0, as expected\nmp.order: RB 13, as expected\n";
    ends_quietly(&run(&["--expect", "sb.order", "mp.order"], b""), 0, lines);
    let wrong = fs::read_to_string(models().join("sb.order")).unwrap().replace("expect NR", "expect RB");
    let line = "standard input: NR 7 3 2 R 0 0, but RB is expected\n";
    ends_quietly(&run(&["--expect", "-"], wrong.as_bytes()), 1, line);
    ends(&run(&["--expect", "--table", "100", "mp.order"], b""), 1, "mp.order: FU 1, but RB is expected\n");
    let said = ends(&run(&["--expect", "-"], b"values 2\nlocations x\nthread\n"), 1, "");
    assert!(said.contains("standard input: expected one line '# expect RB' or '# expect NR'"), "{said}");
    let marked = [b"\xef\xbb\xbf", &fs::read(models().join("sb.order")).unwrap()[..]].concat();
    ends_quietly(&run(&["--expect", "-"], &marked), 0, "standard input: NR 7 3 2 R 0 0, as expected\n");
    let said = ends(&run(&["--expect", "-"], b"PR"), 1, "");
    assert!(said.contains("standard input: "), "{said}");
}

#[test]
fn every_model_is_decided_as_it_expects() {
    let models = collection::load(&collection::directory()).unwrap();
    let files: Vec<String> = models.iter().map(|model| format!("{}.order", model.name)).collect();
    let output = finish(order().arg("--expect").args(&files), b"");
    assert_eq!(output.status.code(), Some(0));
    let lines = String::from_utf8(output.stdout).unwrap();
    assert_eq!(lines.lines().count(), models.len());
    for (line, model) in lines.lines().zip(&models) {
        let verdict = if model.expected == Verdict::Robust { "RB" } else { "NR" };
        assert!(line.starts_with(&format!("{}.order: {verdict} ", model.name)), "{line}");
    }
}

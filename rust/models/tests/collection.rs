//! The models of this repository: each assembles, is accepted, and says what it expects.
#![forbid(unsafe_code)]

use std::collections::BTreeSet;
use std::fs;
use std::path::Path;

use models::collection::{self, Model, Verdict, REPORTS};
use program::{fields, read, Line, Operand};

fn all() -> Vec<Model> {
    collection::load(&collection::directory()).unwrap()
}

/// The names of what stands in a folder.
fn files(folder: &Path) -> Vec<String> {
    let entries = fs::read_dir(folder).unwrap();
    entries.map(|entry| entry.unwrap().file_name().to_string_lossy().into_owned()).collect()
}

fn bytes_of(name: &str) -> Vec<u8> {
    collection::named(name).unwrap().bytes
}

#[test]
fn every_model_is_accepted() {
    for model in all() {
        assert!(read(&model.bytes).is_ok(), "{}", model.name);
    }
}

#[test]
fn every_file_is_a_model() {
    let names = files(&collection::directory());
    let is_known = |name: &str| name.ends_with(".order") || [REPORTS, "README.md"].contains(&name);
    let others: Vec<_> = names.iter().filter(|name| !is_known(name)).collect();
    assert!(others.is_empty(), "neither a model nor README.md nor the reports: {others:?}");
    assert_eq!(all().len(), names.iter().filter(|name| name.ends_with(".order")).count());
}

#[test]
fn every_report_is_of_a_model_and_says_what_it_expects() {
    let names: BTreeSet<_> = files(&collection::directory().join(REPORTS)).into_iter().collect();
    assert_eq!(names, all().iter().map(|model| format!("{}.txt", model.name)).collect());
    for Model { name, expected, report, .. } in all() {
        let verdict = if expected == Verdict::Robust { "RB " } else { "NR " };
        // A model may have more situations than the printing program has places.
        assert!(report.starts_with(verdict) || report.starts_with("FU "), "{name}: {report}");
    }
}

#[test]
fn the_litmus_programs_of_the_source_expect_what_it_says() {
    for (name, expected) in [
        ("barrier-loop", Verdict::NotRobust),
        ("barrier", Verdict::Robust),
        ("sb", Verdict::NotRobust),
        ("mp", Verdict::Robust),
        ("iriw", Verdict::NotRobust),
        ("2+2w", Verdict::NotRobust),
        ("2rmw", Verdict::Robust),
        ("sb+rmws", Verdict::Robust),
        ("sb-zeros", Verdict::NotRobust),
        ("2+2w-no-reads", Verdict::NotRobust),
    ] {
        assert_eq!(collection::named(name).map(|model| model.expected), Ok(expected), "{name}");
    }
}

/// Document 02, Point 5, by the outputs that were agreed for it.
#[test]
fn the_models_with_fences_are_reported_so() {
    let two_fences = ["sb+fences", "2+2w+fences"].map(|name| collection::named(name).unwrap().report);
    assert_eq!(two_fences, ["RB 26\n", "RB 58\n"]);
    let one = collection::named("sb+fence").unwrap().report;
    let lines: Vec<_> = one.lines().collect();
    assert_eq!((lines[0], lines[2]), ("NR 11 4 2 R 0 0", "ST 1 M 2 0"));
}

/// Document 02, Point 3: "The page queue model has eleven."
#[test]
fn the_page_ring_uses_eleven_locations() {
    for (name, expected) in [("page-ring", Verdict::Robust), ("page-ring-sc", Verdict::NotRobust)] {
        let model = collection::named(name).unwrap();
        let program = read(&model.bytes).unwrap();
        let lines = program.threads.iter().flatten();
        let used: BTreeSet<u8> = lines.filter_map(|line| line.location()).collect();
        assert_eq!((program.locations, model.expected), (11, expected), "{name}");
        assert_eq!(used, (0..11).collect(), "{name}");
    }
}

#[test]
fn the_cases_of_document_01_have_its_bytes() {
    assert_eq!(bytes_of("empty-thread"), b"PR\x01\x01\x02TH\x00");
    assert_eq!(
        bytes_of("mp"),
        [
            b"PR\x02\x02\x02TH\x02IN\x05\x00\x00\x01\x00IN\x05\x00\x01\x01\x00".as_slice(),
            b"TH\x02IN\x06\x00\x01\x00\x00IN\x06\x01\x00\x00\x00",
        ]
        .concat()
    );
    assert_eq!(
        bytes_of("2+2w"),
        [
            b"PR\x02\x02\x03TH\x03IN\x05\x00\x00\x01\x00IN\x05\x00\x01\x02\x00IN\x06\x00\x01\x00\x00"
                .as_slice(),
            b"TH\x03IN\x05\x00\x01\x01\x00IN\x05\x00\x00\x02\x00IN\x06\x00\x00\x00\x00",
        ]
        .concat()
    );
    assert_eq!(
        bytes_of("barrier"),
        [
            b"PR\x02\x02\x02TH\x02IN\x05\x00\x00\x01\x00IN\x09\x00\x01\x01\x00".as_slice(),
            b"TH\x02IN\x05\x00\x01\x01\x00IN\x09\x00\x00\x01\x00",
        ]
        .concat()
    );
    assert_eq!(bytes_of("jump-to-end")[8..15], *b"IN\x04\x00\x02\x01\x00");
}

#[test]
fn the_models_use_every_op_and_registers_as_operands() {
    let lines: Vec<Line> =
        all().iter().flat_map(|model| read(&model.bytes).unwrap().threads).flatten().collect();
    let ops: BTreeSet<u8> = lines.iter().map(|line| fields(line)[0]).collect();
    assert_eq!(ops, (1..=11).collect());
    assert!(lines.iter().any(|line| matches!(line, Line::Write { a: Operand::Register(_), .. })));
}

#[test]
fn a_model_that_is_not_there_is_no_model() {
    assert_eq!(
        collection::named("no-such-model").map(|model| model.name),
        Err("no model no-such-model".into())
    );
}

#[test]
fn an_expectation_is_one_line() {
    let expected = collection::expected;
    assert_eq!(expected("# expect RB\nvalues 2\n"), Ok(Verdict::Robust));
    assert_eq!(expected("values 2\n# expect NR"), Ok(Verdict::NotRobust));
    for text in ["", "values 2", "# expect", "# expect FU", "# expect RB NR", "# expect RB\n# expect NR"] {
        assert!(expected(text).is_err(), "{text}");
    }
}

#[test]
fn an_expectation_in_another_spelling_is_named() {
    let message = |text: &str| collection::expected(text).unwrap_err();
    let plain = " expected one line '# expect RB' or '# expect NR'";
    for line in [
        "#expect NR",
        "# Expect: NR",
        "# expects NR",
        "#  EXPECT NR",
        "  # expect NR",
        "# expect FU",
        "# expect NR ",
    ] {
        let text = format!("# a model\n{line}\nvalues 2\n");
        assert_eq!(message(&text), format!("{plain}, found '{line}' on line 2"));
        assert_eq!(message(&text.replace('\n', "\r\n")), format!("{plain}, found '{line}' on line 2"));
    }
    for text in ["", "values 2\n", "# as we expect\n", "expect NR\n", "x := 1 # expect NR\n", "# except NR\n"]
    {
        assert_eq!(message(text), plain, "{text}");
    }
    assert_eq!(message("# expect RB\n\n# expect NR"), format!("{plain}, found a second one on line 3"));
    assert_eq!(message("# expect RB\n# expected"), format!("{plain}, found '# expected' on line 2"));
    // One good line does not hide another that is nearly one, before it or after it.
    for near in ["#expect NR", "# Expect NR", "  # expect NR", "# expect RB "] {
        assert_eq!(message(&format!("# expect RB\n{near}")), format!("{plain}, found '{near}' on line 2"));
        assert_eq!(message(&format!("{near}\n# expect RB")), format!("{plain}, found '{near}' on line 1"));
    }
    let long = format!("# expects{}", "é".repeat(3_000));
    assert_eq!(message(&long), format!("{plain}, found '# expects{}..' on line 1", "é".repeat(31)));
}

#[test]
fn a_directory_with_a_bad_model_is_refused_by_name() {
    let directory = Path::new(env!("CARGO_TARGET_TMPDIR")).join("bad-model");
    fs::create_dir_all(&directory).unwrap();
    fs::write(directory.join("no-verdict.order"), "values 2\nlocations x\nthread\n").unwrap();
    let message = collection::load(&directory).unwrap_err();
    assert!(
        message.ends_with("no-verdict.order: expected one line '# expect RB' or '# expect NR'"),
        "{message}"
    );
    fs::write(directory.join("no-verdict.order"), "# expect RB\nvalue 2\n").unwrap();
    let message = collection::load(&directory).unwrap_err();
    assert!(message.contains("no-verdict.order:2:1: expected 'values', found 'value'"), "{message}");
}

#[test]
fn a_model_without_a_report_is_refused_by_name() {
    let directory = Path::new(env!("CARGO_TARGET_TMPDIR")).join("no-report");
    fs::create_dir_all(directory.join(REPORTS)).unwrap();
    fs::write(directory.join("one.order"), "# expect RB\nvalues 2\nlocations x\nthread\n").unwrap();
    fs::write(directory.join(REPORTS).join("one.txt"), "RB 1\n").unwrap();
    assert_eq!(collection::load(&directory).unwrap()[0].report, "RB 1\n");
    fs::remove_file(directory.join(REPORTS).join("one.txt")).unwrap();
    let message = collection::load(&directory).unwrap_err();
    assert!(message.contains("one.order: no report ") && message.contains("reports/one.txt"), "{message}");
}

//! The printing program against the lines that the second program prints, and against the stored reports.

use std::path::Path;

use compare::checker::random_program;
use compare::printing::program;
use models::collection;
use program::encode;
use random::{damage, Numbers};
use second::{check, PRINTING};

fn printed(bytes: &[u8]) -> String {
    String::from_utf8(run::run_at(Path::new("."), &program(), &[], bytes).stdout).unwrap()
}

#[track_caller]
fn same(bytes: &[u8]) {
    let [table, trace] = PRINTING;
    assert_eq!(printed(bytes), check(bytes, table, trace).to_string(), "of the bytes {bytes:?}");
}

#[test]
fn on_every_model() {
    let models = collection::load(&collection::directory()).unwrap();
    assert!(models.len() >= 50, "only {} models", models.len());
    models.iter().for_each(|model| same(&model.bytes));
}

#[test]
fn every_model_has_its_report() {
    for model in collection::load(&collection::directory()).unwrap() {
        assert_eq!(printed(&model.bytes), model.report, "{}", model.name);
    }
}

#[test]
fn a_run_of_some_700_steps_is_printed_whole() {
    let printed = printed(&collection::named("long-run").unwrap().bytes);
    let lines: Vec<&str> = printed.lines().collect();
    assert_eq!(lines.len(), 706);
    assert_eq!(lines[0], "NR 711 705 2 R 0 1");
    assert_eq!(lines[701..], ["ST 1 W 0 1", "ST 2 R 0 1", "ST 1 W 0 2", "ST 1 R 1 2", "ST 2 W 1 15"]);
}

#[test]
fn on_random_and_damaged_programs() {
    let mut numbers = Numbers::new(1);
    for _ in 0..150 {
        let mut bytes = encode(&random_program(&mut numbers));
        same(&bytes);
        damage(&mut numbers, &mut bytes);
        same(&bytes);
    }
}

#[test]
fn on_inputs_longer_than_any_program() {
    // Eight threads of 64 lines have 3,613 bytes.
    let line = b"IN\x06\x00\x00\x00\x00";
    let thread = [b"TH\x40".as_slice(), &line.repeat(64)].concat();
    let longest = [b"PR\x08\x01\x02".as_slice(), &thread.repeat(8)].concat();
    assert_eq!(longest.len(), 3_613);
    same(&longest);
    same(&[longest.as_slice(), b"\x00"].concat());
    same(&[longest.as_slice(), &vec![0; 100_000]].concat());
    // The first failed check counts, however long the rest is.
    same(&[b"PR\x09\x01\x02".as_slice(), &vec![0; 100_000]].concat());
    same(&[b"PR\x01\x01\x02TH\x41".as_slice(), &vec![0; 100_000]].concat());
}

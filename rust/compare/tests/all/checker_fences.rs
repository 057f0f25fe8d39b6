//! Programs with fences.

#[path = "../../../second/tests/fences/cases.rs"]
mod cases;

use std::path::Path;

use answer::EightNumbers;
use compare::checker::{difference, index_lengths, random_program, Expected, Lengths};
use compare::printing;
use order_check::{numbers, numbers_indexed};
use program::{encode, Program};
use random::{spelled_out, Numbers};
use second::PRINTING;

#[test]
fn each_report_is_the_one_that_is_due() {
    let mut numbers = Numbers::new(1);
    for case in cases::all() {
        let expected = Expected::new(&case.bytes, 1_000);
        let lengths = Lengths { table: case.table, trace: 100 };
        assert_eq!(expected.report(lengths).to_string(), case.report, "{}", case.name);
        let indexes = index_lengths(&mut numbers, expected.places());
        let difference = difference(&case.bytes, &expected, lengths, &indexes, &mut numbers);
        assert_eq!(difference, None, "{}", case.name);
    }
}

/// Cases that are not about a length are those of the printing program's table too.
#[test]
fn the_printing_program_prints_it() {
    let mut printed = 0;
    for case in cases::all().iter().filter(|case| case.table >= PRINTING[0]) {
        let output = run::run_at(Path::new("."), &printing::program(), &[], &case.bytes);
        assert_eq!(String::from_utf8_lossy(&output.stdout), case.report, "{}", case.name);
        printed += 1;
    }
    assert!(printed >= 8, "only {printed}");
}

/// The answer, and all that is left of what is lent.
type Left = (EightNumbers, Vec<u8>, Vec<u8>, Vec<u64>);

/// What a call leaves of a table, a trace and an index that are lent full of 7s.
fn left(bytes: &[u8], table: usize, slots: usize) -> Left {
    let (mut table, mut trace, mut index) = (vec![7; table], vec![7; 200], vec![7; slots]);
    let answer = match slots {
        0 => numbers(bytes, &mut table, &mut trace),
        _ => numbers_indexed(bytes, &mut table, &mut trace, &mut index),
    };
    (answer, table, trace, index)
}

#[test]
fn a_refused_fence_changes_nothing() {
    for case in cases::all().iter().filter(|case| case.report.starts_with("NO")) {
        let number = case.report[3..].trim_end().parse().unwrap();
        for slots in [0, 50] {
            let unchanged = (vec![7; 1_000], vec![7; 200], vec![7; slots]);
            let (answer, table, trace, index) = left(&case.bytes, 1_000, slots);
            assert_eq!(answer, [3, number, 0, 0, 0, 0, 0, 0], "{}", case.name);
            assert!((table, trace, index) == unchanged, "{}", case.name);
        }
    }
}

#[test]
fn a_fence_leaves_every_byte_that_an_update_of_its_location_leaves() {
    let mut numbers = Numbers::new(2);
    let (mut asked, mut not_robust) = (0, 0);
    for drawn in (0..3_000).map(|_| random_program(&mut numbers)).filter(Program::has_fence) {
        let table = 150 * drawn.place_size() + 1;
        let spelled = encode(&spelled_out(&drawn));
        for slots in [0, 200] {
            let fenced = left(&encode(&drawn), table, slots);
            assert!(fenced == left(&spelled, table, slots), "{:?} of {drawn:?}", fenced.0);
            // "never the one named in an NR line"
            let named = fenced.0[0] == 1;
            assert!(!named || fenced.0[6] < drawn.locations.into(), "{drawn:?}");
            not_robust += usize::from(named);
        }
        asked += 1;
    }
    assert!(asked >= 1_000 && not_robust >= 200, "{asked} programs, {not_robust} times NR");
}

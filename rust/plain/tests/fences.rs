//! The plain checker on programs with fences.
#![forbid(unsafe_code)]

#[path = "../../second/tests/fences/cases.rs"]
mod cases;

use answer::{steps_in, Report, Step};
use plain::check;
use program::encode;
use random::{program, scattered, spelled_out, Numbers, Shape};

/// The lines of a report in a table and a trace of these lengths, both lent with 7s, and what is left of them.
fn printed(bytes: &[u8], table: usize) -> (String, Vec<u8>, Vec<u8>) {
    let (mut table, mut trace) = (vec![7; table], vec![7; 8_192]);
    let report = check(bytes, &mut table, &mut trace);
    let steps = if let Report::NotRobust { steps, .. } = report { steps } else { 0 };
    let steps = steps_in(&trace[..Step::BYTES * steps]).expect("whole steps");
    let steps: String = steps.iter().map(|step| format!("{step}\n")).collect();
    (format!("{report}\n{steps}"), table, trace)
}

#[test]
fn each_report_is_the_one_that_is_due() {
    for case in cases::all() {
        let (report, table, trace) = printed(&case.bytes, case.table);
        assert_eq!(report, case.report, "{}", case.name);
        if report.starts_with("NO") {
            assert!(table.iter().chain(&trace).all(|&byte| byte == 7), "{}", case.name);
        }
    }
}

#[test]
fn a_fence_leaves_every_byte_that_an_update_of_its_location_leaves() {
    let mut numbers = Numbers::new(1);
    let mut asked = 0;
    for _ in 0..1_500 {
        let shape = Shape::mixed(&mut numbers);
        let drawn = program(&mut numbers, &shape);
        let drawn = if numbers.once_in(4) { scattered(&mut numbers, drawn) } else { drawn };
        if drawn.has_fence() {
            let table = 150 * drawn.place_size() + numbers.below(drawn.place_size());
            let [fenced, spelled] = [&drawn, &spelled_out(&drawn)].map(|it| printed(&encode(it), table));
            assert!(fenced == spelled, "{}{drawn:?}", fenced.0);
            asked += 1;
        }
    }
    assert!(asked >= 500, "only {asked} have a fence");
}

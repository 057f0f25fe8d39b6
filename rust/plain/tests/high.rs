//! The plain checker on programs of sixteen locations.
#![forbid(unsafe_code)]

#[path = "../../second/tests/high/cases.rs"]
mod cases;

use answer::{steps_in, Report, Step};
use models::collection;
use plain::check;
use program::{encode, read, Program};

/// The report in a large table, with the steps that show it.
fn reported(bytes: &[u8]) -> (Report, Vec<Step>) {
    let (mut table, mut trace) = (vec![0; 200_000_000], vec![0; 8_192]);
    let report = check(bytes, &mut table, &mut trace);
    let steps = if let Report::NotRobust { steps, .. } = report { steps } else { 0 };
    (report, steps_in(&trace[..Step::BYTES * steps]).expect("whole steps"))
}

#[test]
fn each_report_is_the_one_worked_out_by_hand() {
    for case in cases::all() {
        let (report, steps) = reported(&case.bytes);
        let steps: String = steps.iter().map(|step| format!("{step}\n")).collect();
        assert_eq!(format!("{report}\n{steps}"), case.report, "{}", case.name);
    }
}

/// Where a location is when its program has as many as it may have and starts from the last: that of the fences is
/// behind the named ones again.
fn moved(program: &Program, location: u8) -> u8 {
    let last = program.most_locations() - 1;
    if location < program.locations {
        last - location
    } else {
        last + 1
    }
}

/// The report without its count, with its location moved.
///
/// What an unused location's starting write could still have seen belongs to a situation too, so that more locations
/// may mean more situations.
fn uncounted(report: Report, to: impl Fn(u8) -> u8) -> Report {
    match report {
        Report::NotRobust { steps, thread, kind, location, value, .. } => {
            let location = to(location as u8).into();
            Report::NotRobust { count: 0, steps, thread, kind, location, value }
        }
        Report::Robust { .. } => Report::Robust { count: 0 },
        other => panic!("{other}"),
    }
}

#[test]
fn a_model_at_the_last_locations_has_the_same_run() {
    for model in collection::load(&collection::directory()).unwrap() {
        let program = read(&model.bytes).unwrap();
        let to = |location| moved(&program, location);
        let (report, mut steps) = reported(&model.bytes);
        let report = uncounted(report, to);
        for access in steps.iter_mut().filter_map(|step| step.access.as_mut()) {
            access.location = to(access.location);
        }
        let (found, run) = reported(&encode(&program.clone().moved(program.most_locations(), to)));
        assert_eq!((uncounted(found, |location| location), run), (report, steps), "{}", model.name);
    }
}

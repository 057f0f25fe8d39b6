//! Reports are taken up as they are, or not at all.

use std::time::{Duration, Instant};

use answer::{Access, Kind, Report, Step};
use explain::Execution;

use crate::reported::{model, of_source, source, Reported};

const KINDS: [Kind; 3] = [Kind::Read, Kind::Write, Kind::Update];

/// Models with steps of each kind, among them local lines, and with stale reads and writes.
fn some_models() -> [Reported; 6] {
    ["sb", "2+2w", "every-op", "iriw", "peterson-sc", "sb+rmws-apart"].map(model)
}

fn is_refused(reported: &Reported, report: &Report, steps: &[Step]) {
    let Reported { name, program, .. } = reported;
    assert!(Execution::of(program, report, steps).is_none(), "{name}: {report:?} {steps:?}");
}

/// The step with each of its parts changed to everything else that a program of these limits could show.
fn changed(step: Step) -> Vec<Step> {
    let threads = (0..=9).map(|thread| Step { thread, ..step });
    let Some(access) = step.access else {
        let access = |kind| Step { access: Some(Access { kind, location: 0, value: 0 }), ..step };
        return threads.chain(KINDS.map(access)).filter(|&other| other != step).collect();
    };
    let of = |access| Step { access, ..step };
    let kinds = KINDS.map(|kind| of(Some(Access { kind, ..access })));
    let locations = (0..=16).map(|location| of(Some(Access { location, ..access })));
    let values = (0..=16).map(|value| of(Some(Access { value, ..access })));
    let all = threads.chain(kinds).chain(locations).chain(values).chain([of(None)]);
    all.filter(|&other| other != step).collect()
}

#[test]
fn a_changed_step_is_refused() {
    for reported in some_models() {
        for place in 0..reported.steps.len() {
            for step in changed(reported.steps[place]) {
                let mut steps = reported.steps.clone();
                steps[place] = step;
                is_refused(&reported, &reported.report, &steps);
            }
        }
    }
}

#[test]
fn a_run_of_another_length_is_refused() {
    for reported in some_models() {
        let shorter = &reported.steps[1..];
        is_refused(&reported, &reported.report, shorter);
        let longer = [reported.steps.as_slice(), &[Step { thread: 1, access: None }]].concat();
        is_refused(&reported, &reported.report, &longer);
    }
}

/// The report with each of its parts changed to everything else that a program of these limits could show.
fn changed_reports(report: Report) -> Vec<Report> {
    let Report::NotRobust { count, steps, thread, kind, location, value } = report else {
        panic!("{report:?}");
    };
    let of = |steps, thread, kind, location, value| Report::NotRobust {
        count,
        steps,
        thread,
        kind,
        location,
        value,
    };
    let lengths = [steps - 1, steps + 1].map(|steps| of(steps, thread, kind, location, value));
    let threads = (0..=9).map(|thread| of(steps, thread, kind, location, value));
    let kinds = KINDS.map(|kind| of(steps, thread, kind, location, value));
    let locations = (0..=16).map(|location| of(steps, thread, kind, location, value));
    let values = (0..=16).map(|value| of(steps, thread, kind, location, value));
    let all = lengths.into_iter().chain(threads).chain(kinds).chain(locations).chain(values);
    all.filter(|&other| other != report).collect()
}

#[test]
fn a_changed_report_is_refused() {
    for reported in some_models() {
        for report in changed_reports(reported.report) {
            is_refused(&reported, &report, &reported.steps);
        }
    }
}

#[test]
fn another_report_is_refused() {
    let reported = model("sb");
    let others = [Report::Robust { count: 7 }, Report::Full { count: 7 }, Report::Short { wanted: 12 }];
    others.iter().for_each(|report| is_refused(&reported, report, &reported.steps));
}

#[test]
fn the_report_on_another_program_is_refused() {
    let (sb, other) = (model("sb"), model("2+2w"));
    is_refused(&sb, &other.report, &other.steps);
    is_refused(&other, &sb.report, &sb.steps);
}

#[test]
fn seven_hundred_steps_are_taken_in_less_than_a_second() {
    let Reported { program, report, steps, .. } = model("long-run");
    assert!(steps.len() > 700);
    let start = Instant::now();
    let execution = Execution::of(&program, &report, &steps).unwrap();
    assert!(execution.cycle().is_some());
    assert!(start.elapsed() < Duration::from_secs(1), "{:?}", start.elapsed());
}

/// The starting write of x and the first write to it have the same value, and both may be read.
#[test]
fn the_first_write_of_the_value_is_picked() {
    let text = "values 2\nlocations x y\nthread\nx := 0\nx := 1\nr0 := y\nthread\ny := 1\nr0 := x\n";
    let Reported { program, report, steps, .. } = of_source("zeros", source(text)).unwrap();
    let execution = Execution::of(&program, &report, &steps).unwrap();
    assert_eq!(execution.orders[0], [0, 2, 3]);
    assert_eq!((execution.picked, execution.newest), (0, 3));
    assert_eq!(execution.events[execution.stale()].source, Some(0));
}

//! The second checker on programs with fences.
#![forbid(unsafe_code)]

mod cases;

use program::Operand::Constant;
use program::{Line, Program};
use random::{program, scattered, Numbers, Shape};
use second::{check, Access, Ending, Kind, Search, Situation, State};

#[test]
fn each_report_is_the_one_that_is_due() {
    for case in cases::all() {
        assert_eq!(check(&case.bytes, case.table, 8_192).to_string(), case.report, "{}", case.name);
    }
}

#[test]
fn a_refused_fence_writes_nothing() {
    for case in cases::all().iter().filter(|case| case.report.starts_with("NO")) {
        let report = check(&case.bytes, case.table, 8_192);
        assert_eq!((report.places.len(), report.trace()), (0, vec![]), "{}", case.name);
    }
}

#[test]
fn a_fence_shows_as_an_update_to_0_after_the_named_locations() {
    let set = |reg| Line::Sum { reg, a: Constant(3), b: Constant(0) };
    let lines = (0..4).map(set).chain([Line::Fence, Line::Fence]).collect();
    let program = Program { threads: vec![lines], locations: 15, values: 4 };
    let mut state = State::start(&program);
    for _ in 0..4 {
        assert_eq!(state.take_sc_step(&program, 0), Some(None));
    }
    for fences in 1..=2 {
        let shown = Access { kind: Kind::Update, location: 15, value: 0 };
        assert_eq!(state.take_sc_step(&program, 0), Some(Some(shown)));
        assert_eq!((state.thread(0).line, state.thread(0).registers), (4 + fences, [3; 4]));
        assert_eq!(state.graph().order(15).len(), 1 + usize::from(fences));
    }
    assert_eq!(Situation::of(&state).locations.len(), 16);
}

/// Random programs with a fence, some of them at the last of sixteen locations.
fn with_a_fence(seed: u64, count: usize) -> impl Iterator<Item = Program> {
    let mut numbers = Numbers::new(seed);
    let draw = move |_| {
        let drawn = program(&mut numbers, &Shape::fenced());
        if numbers.once_in(4) {
            scattered(&mut numbers, drawn)
        } else {
            drawn
        }
    };
    (0..count).map(draw).filter(Program::has_fence)
}

#[test]
fn the_location_of_the_fences_is_never_named() {
    let mut named = 0;
    for program in with_a_fence(1, 1_500) {
        if let Ending::Witness(witness) = Search::new(&program, 200).ending {
            assert!(witness.location < program.locations.into(), "{program:?}");
            named += 1;
        }
    }
    assert!(named >= 200, "only {named} are not robust");
}

#[test]
fn it_holds_0_and_nothing_goes_after_its_older_writes() {
    let mut updated = 0;
    for program in with_a_fence(2, 300) {
        let fences = usize::from(program.locations);
        for place in Search::new(&program, 100).places {
            let Situation { threads, locations } = &*place.situation;
            assert_eq!((locations.len(), locations[fences].value), (fences + 1, 0));
            assert!(threads.iter().all(|thread| thread.writable[fences] == 0), "{program:?}");
            assert!(locations.iter().all(|location| location.writable[fences] == 0), "{program:?}");
            updated += usize::from(place.access.is_some_and(|access| access.location == fences));
        }
    }
    assert!(updated >= 1_000, "only {updated} fences were taken");
}

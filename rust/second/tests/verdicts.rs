//! The cases of document 01, each with its lent lengths, as document 02, Point 3, has them.
#![forbid(unsafe_code)]

use models::collection;
use second::{check, Answer, Kind, Report, Witness};

const TRACE: usize = 8_192;

/// x := 1 and read y by thread 1, y := 1 by thread 2: the steps of SB.
const STEPS_OF_SB: [u8; 12] = [1, 2, 0, 1, 1, 1, 1, 0, 2, 2, 1, 1];

/// The bytes of a model. That they are those of document 01 is tested where the models are.
fn model(name: &str) -> Vec<u8> {
    collection::named(name).unwrap().bytes
}

/// The answer is this one, so many places are written, and the trace gets these bytes.
#[track_caller]
fn is(report: &Report, answer: Answer, places: usize, trace: &[u8]) {
    assert_eq!(report.answer, answer);
    assert_eq!(report.places.len(), places);
    assert_eq!(report.trace(), trace);
}

/// What is named for SB.
fn of_sb() -> Answer {
    let witness = Witness { thread: 2, kind: Kind::Read, location: 0, value: 0 };
    Answer::NotRobust { count: 7, steps: 3, witness }
}

#[test]
fn sb_has_its_witness_in_situation_7() {
    let sb = model("sb");
    is(&check(&sb, 455, TRACE), of_sb(), 7, &STEPS_OF_SB);
    is(&check(&sb, 454, TRACE), Answer::Full { count: 6 }, 6, &[]);
}

#[test]
fn sb_needs_a_trace_of_12() {
    let sb = model("sb");
    for trace in 0..12 {
        is(&check(&sb, 455, trace), Answer::ShortTrace { wanted: 12 }, 7, &[]);
    }
    assert_eq!(check(&sb, 455, 11).places, check(&sb, 455, TRACE).places);
    is(&check(&sb, 455, 12), of_sb(), 7, &STEPS_OF_SB);
    // Check 10 is asked only if the witness is among the first N.
    is(&check(&sb, 454, 11), Answer::Full { count: 6 }, 6, &[]);
}

#[test]
fn mp_has_13_situations() {
    let mp = model("mp");
    is(&check(&mp, 845, TRACE), Answer::Robust { count: 13 }, 13, &[]);
    is(&check(&mp, 844, TRACE), Answer::Full { count: 12 }, 12, &[]);
    is(&check(&mp, 845, 0), Answer::Robust { count: 13 }, 13, &[]);
}

#[test]
fn in_2_2w_a_write_is_the_witness() {
    let witness = Witness { thread: 2, kind: Kind::Write, location: 0, value: 0 };
    let answer = Answer::NotRobust { count: 8, steps: 3, witness };
    // x := 1; y := 2 ‖ y := 1.
    is(&check(&model("2+2w"), 520, TRACE), answer, 8, &[1, 2, 0, 1, 1, 2, 1, 2, 2, 2, 1, 1]);
}

#[test]
fn the_barrier_has_7_situations() {
    is(&check(&model("barrier"), 455, TRACE), Answer::Robust { count: 7 }, 7, &[]);
}

#[test]
fn an_empty_thread_has_one_situation() {
    let empty = b"PR\x01\x01\x02TH\x00";
    is(&check(empty, 29, TRACE), Answer::Robust { count: 1 }, 1, &[]);
    is(&check(empty, 28, TRACE), Answer::Full { count: 0 }, 0, &[]);
    is(&check(empty, 0, 0), Answer::Full { count: 0 }, 0, &[]);
}

#[test]
fn refused_programs_write_nothing() {
    let jump = |target| [b"PR\x01\x01\x02TH\x01IN\x04\x00".as_slice(), &[target], b"\x01\x00"].concat();
    let more = [model("sb").as_slice(), b"\x00"].concat();
    let k_is_1 = b"PR\x01\x01\x01TH\x00".to_vec();
    for (bytes, number) in [(vec![], 1), (k_is_1, 2), (more, 9), (jump(2), 7)] {
        is(&check(&bytes, 49_152, TRACE), Answer::Refused { number }, 0, &[]);
    }
    is(&check(&jump(1), 49_152, TRACE), Answer::Robust { count: 2 }, 2, &[]);
}

#[test]
fn places_say_where_they_were_reached_from() {
    let found = |name| {
        let places = check(&model(name), 49_152, TRACE).places;
        places.iter().map(|place| (place.from, place.by)).collect::<Vec<_>>()
    };
    assert_eq!(found("sb"), [(0, 0), (1, 1), (1, 2), (2, 1), (2, 2), (3, 2), (4, 2)]);
    assert_eq!(found("barrier"), [(0, 0), (1, 1), (1, 2), (2, 2), (4, 1), (4, 2), (5, 2)]);
}

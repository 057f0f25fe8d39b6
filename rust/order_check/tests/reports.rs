//! The cases of the documents as a user of the crate gets them, with the lent lengths of document 02.
#![forbid(unsafe_code)]

use order_check::{check, check_indexed, steps_in, Access, Kind, Report, Step};

/// x := 1; read y ‖ y := 1; read x; K = 2.
const SB: &[u8] = b"PR\x02\x02\x02TH\x02IN\x05\x00\x00\x01\x00IN\x06\x00\x01\x00\x00\
    TH\x02IN\x05\x00\x01\x01\x00IN\x06\x00\x00\x00\x00";

/// x := 1; FADD(y, 0) ‖ y := 1; FADD(x, 0); K = 2.
const SB_OF_UPDATES: &[u8] = b"PR\x02\x02\x02TH\x02IN\x05\x00\x00\x01\x00IN\x07\x00\x01\x00\x00\
    TH\x02IN\x05\x00\x01\x01\x00IN\x07\x00\x00\x00\x00";

/// x := 1; y := 2 ‖ y := 1; x := 2; K = 3.
const TWO_WRITES: &[u8] = b"PR\x02\x02\x03TH\x02IN\x05\x00\x00\x01\x00IN\x05\x00\x01\x02\x00\
    TH\x02IN\x05\x00\x01\x01\x00IN\x05\x00\x00\x02\x00";

/// x := 1; fence; read y ‖ y := 1; read x; K = 2.
const HALF_FENCED_SB: &[u8] = b"PR\x02\x02\x02\
    TH\x03IN\x05\x00\x00\x01\x00IN\x0b\x00\x00\x00\x00IN\x06\x00\x01\x00\x00\
    TH\x02IN\x05\x00\x01\x01\x00IN\x06\x00\x00\x00\x00";

const EMPTY_THREAD: &[u8] = b"PR\x01\x01\x02TH\x00";

/// Seven places of two threads and two locations.
const SEVEN: usize = 455;

/// The bytes of three steps.
const THREE: usize = 12;

/// x := 1; read y ‖ y := 1.
const STEPS_OF_SB: [u8; THREE] = [1, 2, 0, 1, 1, 1, 1, 0, 2, 2, 1, 1];

fn not_robust(kind: Kind) -> Report {
    Report::NotRobust { count: 7, steps: 3, thread: 2, kind, location: 0, value: 0 }
}

#[test]
fn the_kind_of_the_access_is_named_and_that_of_each_step() {
    for (program, kind, value) in
        [(SB, Kind::Read, 0), (TWO_WRITES, Kind::Write, 2), (SB_OF_UPDATES, Kind::Update, 0)]
    {
        let (mut table, mut trace) = ([0; SEVEN], [9; THREE + 1]);
        assert_eq!(check(program, &mut table, &mut trace), not_robust(kind));
        let step = |thread, kind, location, value| {
            let access = Some(Access { kind, location, value });
            Step { thread, access }
        };
        let steps = [step(1, Kind::Write, 0, 1), step(1, kind, 1, value), step(2, Kind::Write, 1, 1)];
        assert_eq!(steps_in(&trace[..THREE]).as_deref(), Some(&steps[..]));
        assert_eq!(trace[THREE], 9);
    }
}

#[test]
fn a_step_of_a_local_line_has_no_access() {
    // r0 := 1; x := r0; read y ‖ y := 1; read x; K = 2.
    let program = b"PR\x02\x02\x02TH\x03IN\x01\x00\x00\x01\x00IN\x05\x00\x00\x80\x00IN\x06\x00\x01\x00\x00\
        TH\x02IN\x05\x00\x01\x01\x00IN\x06\x00\x00\x00\x00";
    let (mut table, mut trace) = (vec![0; 10_000], [9; 4 + THREE]);
    let report = check(program, &mut table, &mut trace);
    assert!(matches!(report, Report::NotRobust { steps: 4, thread: 2, kind: Kind::Read, .. }), "{report:?}");
    assert_eq!(trace, [[1, 0, 0, 0].as_slice(), &STEPS_OF_SB].concat()[..]);
    assert_eq!(steps_in(&trace).unwrap()[0], Step { thread: 1, access: None });
}

#[test]
fn a_fence_is_an_update_at_the_location_after_the_named_ones() {
    // Eleven places of two threads and three locations, and four steps.
    let (mut table, mut trace) = ([0; 11 * 98], [9; 17]);
    let report = check(HALF_FENCED_SB, &mut table, &mut trace);
    let stale = Report::NotRobust { count: 11, steps: 4, thread: 2, kind: Kind::Read, location: 0, value: 0 };
    assert_eq!(report, stale);
    assert_eq!(trace, [1, 2, 0, 1, 1, 3, 2, 0, 1, 1, 1, 0, 2, 2, 1, 1, 9]);
    let fence = Access { kind: Kind::Update, location: 2, value: 0 };
    assert_eq!(steps_in(&trace[..16]).unwrap()[1], Step { thread: 1, access: Some(fence) });
    let (mut table, mut trace) = ([0; 11 * 98 - 1], [9; 17]);
    assert_eq!(check(HALF_FENCED_SB, &mut table, &mut trace), Report::Full { count: 10 });
    assert_eq!(trace, [9; 17]);
}

#[test]
fn a_fence_beside_sixteen_locations_is_refused_and_changes_nothing() {
    // The header's L is the fourth byte.
    let (mut table, mut trace, mut index) = ([7; SEVEN], [9; THREE], [5; 14]);
    let mut program = HALF_FENCED_SB.to_vec();
    program[3] = 16;
    assert_eq!(check(&program, &mut table, &mut trace), Report::Refused { number: 12 });
    let refused = check_indexed(&program, &mut table, &mut trace, &mut index);
    assert_eq!(refused, Report::Refused { number: 12 });
    assert_eq!((table, trace, index), ([7; SEVEN], [9; THREE], [5; 14]));
}

#[test]
fn a_larger_table_decides() {
    let mut trace = [9; THREE];
    assert_eq!(check(SB, &mut [0; SEVEN - 1], &mut trace), Report::Full { count: 6 });
    assert_eq!(trace, [9; THREE]);
    assert_eq!(check(SB, &mut [0; SEVEN], &mut trace), not_robust(Kind::Read));
    assert_eq!(trace, STEPS_OF_SB);
}

#[test]
fn a_trace_of_the_wanted_length_is_just_enough() {
    for short in 0..THREE {
        let (mut table, mut trace) = ([0; SEVEN], vec![9; short]);
        assert_eq!(check(SB, &mut table, &mut trace), Report::Short { wanted: THREE });
        assert_eq!(trace, vec![9; short]);
        let (mut again, mut trace) = ([0; SEVEN], [9; THREE]);
        assert_eq!(check(SB, &mut again, &mut trace), not_robust(Kind::Read));
        assert_eq!((again, trace), (table, STEPS_OF_SB));
    }
}

#[test]
fn nothing_need_be_lent() {
    assert_eq!(check(EMPTY_THREAD, &mut [0; 29], &mut []), Report::Robust { count: 1 });
    assert_eq!(check(EMPTY_THREAD, &mut [], &mut []), Report::Full { count: 0 });
    assert_eq!(check(&[], &mut [], &mut []), Report::Refused { number: 1 });
}

#[test]
fn what_is_no_program_changes_nothing() {
    let (mut table, mut trace) = ([7; SEVEN], [9; THREE]);
    let more = [SB, b"\x00"].concat();
    assert_eq!(check(&more, &mut table, &mut trace), Report::Refused { number: 9 });
    assert_eq!((table, trace), ([7; SEVEN], [9; THREE]));
    let mut index = [5; 14];
    assert_eq!(check_indexed(&more, &mut table, &mut trace, &mut index), Report::Refused { number: 9 });
    assert_eq!((table, trace, index), ([7; SEVEN], [9; THREE], [5; 14]));
}

#[test]
fn an_index_of_any_length_changes_nothing_but_itself() {
    let (mut table, mut trace) = ([0; SEVEN], [9; THREE + 1]);
    check(SB, &mut table, &mut trace);
    for slots in 0..20 {
        let (mut other_table, mut other_trace, mut index) =
            ([7; SEVEN], [9; THREE + 1], vec![u64::MAX; slots]);
        let report = check_indexed(SB, &mut other_table, &mut other_trace, &mut index);
        assert_eq!(report, not_robust(Kind::Read));
        assert_eq!((other_table, other_trace), (table, trace));
        assert_eq!(index.iter().filter(|&&slot| slot != 0).count(), 7.min(slots / 2));
    }
}

#[test]
fn of_a_long_index_only_the_front_is_used() {
    let (mut table, mut trace, mut index) = ([0; SEVEN], [9; THREE], vec![u64::MAX; 3_000]);
    assert_eq!(check_indexed(SB, &mut table, &mut trace, &mut index), not_robust(Kind::Read));
    let (front, rest) = index.split_at(1_024);
    assert!(!front.contains(&u64::MAX));
    assert_eq!(front.iter().filter(|&&slot| slot != 0).count(), 7);
    assert!(rest.iter().all(|&slot| slot == u64::MAX));
}

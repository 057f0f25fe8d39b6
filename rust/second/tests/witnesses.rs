//! What is named of a state with a witness, at states that schedules lead to.
#![forbid(unsafe_code)]

use program::Operand::Constant;
use program::{Line, Program};
use second::{witness, Kind, State, Witness};

const X: u8 = 0;
const Y: u8 = 1;
const Z: u8 = 2;
const W: u8 = 3;

fn write(location: u8, value: u8) -> Line {
    Line::Write { location, a: Constant(value) }
}

fn read(location: u8) -> Line {
    Line::Read { reg: 0, location }
}

fn cas(location: u8, from: u8, to: u8) -> Line {
    Line::Cas { reg: 0, location, a: Constant(from), b: Constant(to) }
}

/// What is named after the schedule, with threads counted from 1: also in a long run, in which a last thread first
/// writes another location many times.
#[track_caller]
fn named(mut threads: Vec<Vec<Line>>, schedule: &[usize]) -> Option<Witness> {
    let found = named_in(threads.clone(), schedule);
    threads.push(vec![write(W, 1), Line::Jump { target: 0, a: Constant(1) }]);
    let last = threads.len();
    let long = [vec![last; 2 * 2_500], schedule.to_vec()].concat();
    assert_eq!(named_in(threads, &long), found);
    found
}

fn named_in(threads: Vec<Vec<Line>>, schedule: &[usize]) -> Option<Witness> {
    let program = Program { threads, locations: 4, values: 4 };
    let mut state = State::start(&program);
    for thread in schedule {
        state.take_sc_step(&program, thread - 1).expect("a run");
    }
    witness(&program, &state)
}

fn at_x(thread: usize, kind: Kind, value: u8) -> Option<Witness> {
    Some(Witness { thread, kind, location: X.into(), value })
}

/// x := 3; x := 2; x := 1; read y ‖ read x; y := 1; and a last line. The read of x stands after x := 3, so of the
/// stale values 3 and 2 are left, the smaller one later in the modification order.
fn after_a_glance(last: Line) -> Option<Witness> {
    let writer = vec![write(X, 3), write(X, 2), write(X, 1), read(Y)];
    named(vec![writer, vec![read(X), write(Y, 1), last]], &[1, 2, 1, 1, 1, 2])
}

/// The same, but x := 2 is followed by a read-modify-write.
fn before_an_update(last: Line) -> Option<Witness> {
    let writer = vec![write(X, 3), write(X, 2), cas(X, 2, 1), read(Y)];
    named(vec![writer, vec![read(X), write(Y, 1), last]], &[1, 2, 1, 1, 1, 2])
}

#[test]
fn the_smallest_stale_value_is_named() {
    assert_eq!(after_a_glance(read(X)), at_x(2, Kind::Read, 2));
    assert_eq!(after_a_glance(write(X, 0)), at_x(2, Kind::Write, 2));
    assert_eq!(after_a_glance(Line::Fadd { reg: 0, location: X, a: Constant(1) }), at_x(2, Kind::Update, 2));
}

#[test]
fn a_cas_reads_what_it_does_not_expect() {
    assert_eq!(after_a_glance(cas(X, 2, 0)), at_x(2, Kind::Update, 2));
    assert_eq!(after_a_glance(cas(X, 3, 0)), at_x(2, Kind::Read, 2));
    assert_eq!(after_a_glance(cas(X, 1, 0)), at_x(2, Kind::Read, 2));
}

#[test]
fn blocking_lines_use_only_what_they_expect() {
    let wait = |value| Line::Wait { location: X, a: Constant(value) };
    let bcas = |value| Line::Bcas { location: X, a: Constant(value), b: Constant(0) };
    assert_eq!(after_a_glance(wait(3)), at_x(2, Kind::Read, 3));
    assert_eq!(after_a_glance(bcas(3)), at_x(2, Kind::Update, 3));
    for value in [0, 1] {
        assert_eq!(after_a_glance(wait(value)), None);
        assert_eq!(after_a_glance(bcas(value)), None);
    }
}

#[test]
fn nothing_goes_before_a_read_modify_write() {
    assert_eq!(before_an_update(read(X)), at_x(2, Kind::Read, 2));
    assert_eq!(before_an_update(write(X, 0)), at_x(2, Kind::Write, 3));
    assert_eq!(before_an_update(cas(X, 2, 0)), at_x(2, Kind::Read, 3));
    assert_eq!(before_an_update(cas(X, 3, 0)), at_x(2, Kind::Read, 2));
    let bcas = Line::Bcas { location: X, a: Constant(2), b: Constant(0) };
    assert_eq!(before_an_update(bcas), None);
}

#[test]
fn the_lowest_thread_is_named() {
    let threads = |first: u8, second: u8| {
        let reader = |mine| vec![write(mine, 1), read(X)];
        vec![vec![write(X, 1), read(Y), read(Z)], reader(first), reader(second)]
    };
    assert_eq!(named(threads(Y, Z), &[1, 1, 1, 2, 3]), at_x(2, Kind::Read, 0));
    assert_eq!(named(threads(Y, Z), &[1, 1, 1, 3]), at_x(3, Kind::Read, 0));
}

#[test]
fn a_local_line_and_an_ended_thread_are_no_witness() {
    let local = Line::Sum { reg: 0, a: Constant(1), b: Constant(1) };
    assert_eq!(after_a_glance(local), None);
    let writer = vec![write(X, 1), read(Y)];
    assert_eq!(named(vec![writer, vec![write(Y, 1)]], &[1, 1, 2]), None);
}

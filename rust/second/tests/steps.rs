//! What each line shows when its step is taken, in the trace and on its ST line.
#![forbid(unsafe_code)]

use program::Operand::{Constant, Register};
use program::{Line, Program};
use second::{Access, Kind, Situation, State, Step};

const X: u8 = 0;
const Y: u8 = 1;

fn read(location: u8, value: u8) -> Option<Access> {
    Some(Access { kind: Kind::Read, location: location.into(), value })
}

fn write(location: u8, value: u8) -> Option<Access> {
    Some(Access { kind: Kind::Write, location: location.into(), value })
}

fn update(location: u8, value: u8) -> Option<Access> {
    Some(Access { kind: Kind::Update, location: location.into(), value })
}

/// Register 0 gets the value.
fn set(value: u8) -> Line {
    Line::Sum { reg: 0, a: Constant(value), b: Constant(0) }
}

/// A thread alone, among two locations and four values, takes these lines one after the other, and each shows what
/// stands beside it. After the last one it has no step.
#[track_caller]
fn shows(lines: &[(Line, Option<Access>)]) {
    let threads = vec![lines.iter().map(|(line, _)| *line).collect()];
    let program = Program { threads, locations: 2, values: 4 };
    let (mut state, mut taken) = (State::start(&program), State::start(&program));
    for (line, expected) in lines {
        let (access, after) = state.sc_step(&program, 0).unwrap_or_else(|| panic!("{line:?} has no step"));
        assert_eq!(access, *expected, "{line:?}");
        assert_eq!(taken.take_sc_step(&program, 0), Some(*expected), "{line:?}");
        assert_eq!(Situation::of(&taken), Situation::of(&after), "{line:?}");
        state = after;
    }
    assert!(state.sc_step(&program, 0).is_none());
    assert!(taken.take_sc_step(&program, 0).is_none());
}

#[test]
fn a_local_line_shows_nothing() {
    shows(&[
        (Line::Sum { reg: 0, a: Constant(3), b: Constant(3) }, None),
        (Line::Equal { reg: 1, a: Constant(1), b: Constant(1) }, None),
        (Line::Less { reg: 2, a: Constant(3), b: Constant(2) }, None),
        (Line::Jump { target: 0, a: Register(2) }, None),
        (Line::Jump { target: 5, a: Register(1) }, None),
    ]);
}

#[test]
fn a_read_shows_the_value_read_and_a_write_the_value_written() {
    shows(&[
        (Line::Read { reg: 0, location: X }, read(X, 0)),
        (Line::Write { location: X, a: Constant(3) }, write(X, 3)),
        (Line::Read { reg: 1, location: X }, read(X, 3)),
        (Line::Write { location: Y, a: Register(1) }, write(Y, 3)),
        (Line::Wait { location: Y, a: Constant(3) }, read(Y, 3)),
        (Line::Write { location: Y, a: Register(0) }, write(Y, 0)),
        (Line::Wait { location: Y, a: Register(0) }, read(Y, 0)),
    ]);
}

#[test]
fn a_read_modify_write_shows_the_value_written() {
    shows(&[
        (Line::Fadd { reg: 0, location: Y, a: Constant(0) }, update(Y, 0)),
        (Line::Fadd { reg: 0, location: X, a: Constant(3) }, update(X, 3)),
        // 3 + 3 modulo 4.
        (Line::Fadd { reg: 0, location: X, a: Constant(3) }, update(X, 2)),
        (Line::Cas { reg: 1, location: X, a: Constant(2), b: Register(0) }, update(X, 3)),
        (Line::Bcas { location: X, a: Register(0), b: Register(1) }, update(X, 2)),
        (Line::Bcas { location: X, a: Constant(2), b: Constant(2) }, update(X, 2)),
    ]);
}

#[test]
fn a_failed_cas_shows_the_value_found() {
    shows(&[
        (Line::Write { location: X, a: Constant(3) }, write(X, 3)),
        (Line::Cas { reg: 0, location: X, a: Constant(2), b: Constant(1) }, read(X, 3)),
        (Line::Cas { reg: 0, location: X, a: Constant(0), b: Constant(3) }, read(X, 3)),
        (Line::Read { reg: 0, location: X }, read(X, 3)),
    ]);
}

#[test]
fn operands_count_before_the_register_changes() {
    let fadd = Line::Fadd { reg: 0, location: X, a: Register(0) };
    let cas = |a, b| Line::Cas { reg: 0, location: X, a, b };
    shows(&[
        (set(3), None),
        (fadd, update(X, 3)),
        // The register is 0 by now, then 3.
        (fadd, update(X, 3)),
        (fadd, update(X, 2)),
        // It is 3, and 2 is found.
        (cas(Register(0), Register(0)), read(X, 2)),
        (cas(Register(0), Register(0)), update(X, 2)),
        (set(1), None),
        (cas(Constant(2), Register(0)), update(X, 1)),
    ]);
}

#[test]
fn a_blocked_line_has_no_step() {
    for line in [
        Line::Wait { location: X, a: Constant(1) },
        Line::Bcas { location: X, a: Constant(1), b: Constant(0) },
    ] {
        let program = Program { threads: vec![vec![line]], locations: 2, values: 4 };
        let mut state = State::start(&program);
        assert!(state.sc_step(&program, 0).is_none(), "{line:?}");
        assert!(state.take_sc_step(&program, 0).is_none(), "{line:?}");
        assert_eq!((state.thread(0).line, state.graph().size()), (0, 2), "{line:?}");
    }
}

#[test]
fn a_step_that_is_taken_leaves_other_states_as_they_are() {
    let lines =
        vec![Line::Write { location: X, a: Constant(1) }, Line::Write { location: X, a: Constant(2) }];
    let program = Program { threads: vec![lines], locations: 2, values: 4 };
    let mut state = State::start(&program);
    state.take_sc_step(&program, 0).unwrap();
    let (before, kept) = (Situation::of(&state), state.clone());
    state.take_sc_step(&program, 0).unwrap();
    assert_eq!(Situation::of(&kept), before);
    assert_eq!((kept.graph().size(), kept.graph().order(0)), (3, &[0, 2][..]));
    assert_eq!((state.graph().size(), state.graph().order(0)), (4, &[0, 2, 3][..]));
}

#[test]
fn a_step_has_its_bytes_and_its_line() {
    for (access, bytes, line) in [
        (None, [8, 0, 0, 0], "8 L 0 0"),
        (read(15, 0), [8, 1, 15, 0], "8 R 15 0"),
        (write(X, 15), [8, 2, 0, 15], "8 W 0 15"),
        (update(Y, 10), [8, 3, 1, 10], "8 M 1 10"),
    ] {
        let step = Step { thread: 8, access };
        assert_eq!((step.bytes(), step.to_string()), (bytes, line.into()));
    }
}

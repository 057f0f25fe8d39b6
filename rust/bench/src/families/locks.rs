//! Locks.

use crate::text::{model, threads};

/// What a lock guards: x is counted up.
const GUARDED: &str = "r1 := x\nr1 := r1 + 1\nx := r1\n";

/// A lock that serves in the order of tickets.
pub fn ticket(rounds: &[usize]) -> String {
    let lines =
        |_| format!("r0 := FADD(next, 1)\nwait(serving = r0)\n{GUARDED}r0 := r0 + 1\nserving := r0\n");
    model(&["next", "serving", "x"].map(String::from), threads(rounds, lines))
}

/// A lock taken by CAS; who finds it taken waits until it is free and tries again.
pub fn spin(rounds: &[usize]) -> String {
    let take = "if 1 goto take\nbusy:\nwait(l = 0)\ntake:\nr0 := CAS(l, 0 -> 1)\nif r0 goto busy\n";
    let lines = |_| format!("{take}{GUARDED}l := 0\n");
    model(&["l", "x"].map(String::from), threads(rounds, lines))
}

/// A sequence lock of one writer, the first thread: it makes s odd while it writes x and y; a reader tries again until s
/// was even and the same before and after its reads.
pub fn sequence(rounds: &[usize]) -> String {
    let writer = "r0 := r0 + 1\ns := r0\nx := r3\ny := r3\nr0 := r0 + 1\ns := r0\n";
    // Eight times an odd number is 8 modulo 16, eight times an even one 0.
    let odd = "r1 := r0 + r0\nr1 := r1 + r1\nr1 := r1 + r1\n";
    let changed = "r1 := s\nr1 := r1 = r0\nr1 := r1 = 0\n";
    let reader =
        format!("again:\nr0 := s\n{odd}if r1 goto again\nr1 := x\nr1 := y\n{changed}if r1 goto again\n");
    let lines = move |t| if t == 0 { writer.into() } else { reader.clone() };
    model(&["s", "x", "y"].map(String::from), threads(rounds, lines))
}

//! Counters.

use crate::text::{model, threads};

/// Threads that count two counters up by FADD.
pub fn counters(rounds: &[usize]) -> String {
    let lines = |_| "r0 := FADD(c, 1)\nr0 := FADD(d, 1)\n".into();
    model(&["c", "d"].map(String::from), threads(rounds, lines))
}

//! Threads that write and read without a lock.

use crate::text::{model, threads};

/// Store buffering in a ring, fenced by an update: each thread writes its location, updates one that is there for nothing
/// else, and reads the next thread's location.
pub fn fenced(rounds: &[usize]) -> String {
    ring(rounds, &["f"], "r0 := FADD(f, 0)")
}

/// The same with a fence in place of that update.
pub fn fence(rounds: &[usize]) -> String {
    ring(rounds, &[], "fence")
}

/// Store buffering in a ring, with this line between the write and the read of each thread.
fn ring(rounds: &[usize], beside: &[&str], between: &str) -> String {
    let own = |t: usize| format!("x{}", t % rounds.len());
    let beside = beside.iter().map(|name| name.to_string());
    let locations: Vec<String> = (0..rounds.len()).map(own).chain(beside).collect();
    let lines = |t| format!("r1 := r3 + 1\n{} := r1\n{between}\nr0 := {}\n", own(t), own(t + 1));
    model(&locations, threads(rounds, lines))
}

/// Message passing from the first thread to all others: it writes x and a flag again and again, and they read the flag
/// and x whenever they like.
pub fn news(rounds: &[usize]) -> String {
    let lines = |t| if t == 0 { "r0 := r3 + 1\nx := r0\nf := r0\n" } else { "r0 := f\nr1 := x\n" };
    model(&["x", "f"].map(String::from), threads(rounds, move |t| lines(t).into()))
}

/// Message passing along a chain: from each thread to the next through a channel of one message, which has a flag that
/// says whether a message is there.
pub fn chain(rounds: &[usize]) -> String {
    let last = rounds.len() - 1;
    let locations: Vec<String> = (1..=last).flat_map(|t| [format!("x{t}"), format!("f{t}")]).collect();
    let take = |t| match t {
        0 => "r0 := r3 + 1\n".into(),
        _ => format!("wait(f{t} = 1)\nr0 := x{t}\nf{t} := 0\n"),
    };
    let hand_on = move |t| match t {
        t if t == last => String::new(),
        _ => format!("wait(f{0} = 0)\nx{0} := r0\nf{0} := 1\n", t + 1),
    };
    model(&locations, threads(rounds, move |t| take(t) + &hand_on(t)))
}

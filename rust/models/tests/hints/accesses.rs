//! Accesses in other forms, and more than one on a line.

use crate::{line, lines, offered, three};

#[test]
fn accesses_of_other_forms() {
    lines("write 'CAS(x, 0 -> 1)'", &["r0 := CAS(x, 0, 1)"]);
    lines("write 'BCAS(flag, r1 -> full)'", &["BCAS(flag, r1, full)"]);
    lines(
        "a register gets the value found: 'rN := CAS(..)', where rN is a free register",
        &["CAS(x, 0 -> 1)", "end: CAS(x, 0 -> 1)", "x := CAS(x, 0 -> 1)"],
    );
    lines(
        "a register gets the value found: 'rN := FADD(..)', where rN is a free register",
        &["FADD(x, 1)", "flag := FADD(x, 1)"],
    );
    lines("'BCAS' stands without ':='", &["r0 := BCAS(x, 0 -> 1)"]);
    lines("'wait' stands without ':='", &["r0 := wait(x = 1)"]);
    lines("a location stands without '&'", &["r0 := CAS(&x, 0 -> 1)", "wait(&x = 1)"]);
}

#[test]
fn a_line_makes_one_access() {
    let first = "read 'flag' into a free register first, in a line of its own";
    lines(first, &["x := flag", "if flag goto again", "r0 := CAS(x, flag -> 1)", "r0 := CAS(x, 0 -> flag)"]);
    lines(first, &["r0 := 1 + flag", "r0 := FADD(x, flag)", "x := flag + 1", "flag := flag + x"]);
    let anew = "read 'flag' into a free register first; if each round reads it anew, write a loop instead";
    lines(anew, &["wait(x = flag)", "BCAS(x, flag -> 1)", "BCAS(x, 0 -> flag)"]);
    lines(
        "a read stands alone: write 'r0 := x', and go on with r0",
        &["r0 := x + 1", "r0 := x = 1", "r0 := x - 1", "r0 := x + r1"],
    );
    lines("a read stands alone: write 'mine := x', and go on with mine", &["mine := x < 1"]);
    lines("a read stands alone: read 'x' into a free register first", &["r0 := x + r0", "r0 := x - mine"]);
    lines("work the value out in a free register first", &["x := r0 + 1", "x := 1 = full", "x := 2 - 1"]);
}

/// In C `x = x + 1` is a load and a store: a model with one access in their place would have fewer runs.
#[test]
fn a_sum_in_place_is_three_lines_unless_it_is_atomic() {
    lines(&three("1"), &["x := x + 1", "end: x := x + 1"]);
    lines(&three("full"), &["x := x + full"]);
    lines(&three("r0"), &["x := x + r0"]);
    lines(&three("mine"), &["x := x + mine"]);
}

/// A register of the thread in its place would lose what it holds, and that may change the verdict.
#[test]
fn no_register_is_written_that_the_line_does_not_name() {
    for text in [
        "x++",
        "x += mine",
        "x := x + r0",
        "CAS(x, 0 -> 1)",
        "FADD(x, 1)",
        "load(x)",
        "x := load(flag)",
        "fetch_add(x, 1)",
        "atomic_compare_exchange_weak(x, e, 1)",
        "swap(x, 1)",
        "r0 := swap(x, r0)",
        "if r1 = 2 goto again",
        "if !r1 goto again",
        "x := r1 >= 2",
        "x := r1 != 2",
        "x := r1 > 2",
    ] {
        let hint = line(text).unwrap();
        let written: Vec<_> = hint.match_indices(" := ").map(|(end, _)| written(&hint[..end])).collect();
        assert!(written.contains(&"rN"), "{text}: {hint}");
        assert!(written.iter().all(|name| ["rN", "rM", "x"].contains(name)), "{text}: {hint}");
        assert!(
            hint.contains("where rN is a free register") || hint.contains("rN and rM are free registers")
        );
    }
}

/// The last word.
fn written(text: &str) -> &str {
    text.rsplit(|c: char| !c.is_ascii_alphanumeric()).next().unwrap()
}

#[test]
fn what_a_hint_offers_in_quotes_assembles() {
    for (line, count) in [
        ("x := x + mine", 4),
        ("x++", 4),
        ("x += mine", 4),
        ("r1++", 1),
        ("r0 := x++", 1),
        ("mfence", 1),
        ("wait(x)", 2),
        ("store(x, 1)", 1),
        ("r0 := load(x)", 1),
        ("fetch_add(x, 1)", 1),
        ("r0 := XCHG(x, 1)", 2),
        ("r0 := atomic_compare_exchange_weak(x, e, 1)", 1),
        ("r0 := r1 + r2 + r3", 1),
    ] {
        assert_eq!(offered(line).len(), count, "{line}");
    }
}

//! Fences of other languages, of older models, and the word `fence` where it is taken for a name.

use super::{is_end, is_location};
use crate::instruction::{Scope, AT_MOST};
use crate::lexer::Piece::{self, Number, Sign, Stray, Word};
use crate::names::FENCE;

/// For what means a full fence.
const ALONE: &str = "a fence is the line 'fence', with nothing else on it";

/// For a fence that orders less: a full one in its place would be stronger.
const LEAVE_OUT: &str = "leave this fence out: all accesses of a model are acquire and release";

/// For one on a location that is not there.
const NO_LOCATION: &str = "a fence is the line 'fence', and needs no location";

/// Where 'fence' is to be a name.
const NO_NAME: &str =
    "a fence is the line 'fence', and needs no location: take another name for anything else";

/// Where it is to be a label.
const NO_LABEL: &str = "a fence is the line 'fence': take another name for the label";

/// Where there is no room for one.
const NO_ROOM: &str = "a fence has a location of its own, and 16 are the most: leave one out of 'locations'";

/// Follows the hint for a line that may mean a fence, or something else.
pub const IS_LINE: &str = "; a fence is the line 'fence'";

/// Words for a fence that is full unless its arguments say otherwise.
const FULL: &[&str] = &[
    FENCE,
    "mfence",
    "_mm_mfence",
    "memorybarrier",
    "sync",
    "hwsync",
    "dmb",
    "__dmb",
    "dsb",
    "atomic_thread_fence",
    "__atomic_thread_fence",
    "__sync_synchronize",
    "smp_mb",
    "__smp_mb",
    "mb",
];

/// Words for fences that never are.
const WEAK: &[&str] = &["lfence", "sfence", "lwsync", "smp_rmb", "smp_wmb", "rmb", "wmb"];

/// The hint for a word that is a fence elsewhere, in small letters, with what follows it.
pub fn fence(word: &str, after: &[Piece]) -> Option<&'static str> {
    if WEAK.contains(&word) {
        return Some(LEAVE_OUT);
    }
    if !FULL.contains(&word) {
        return None;
    }
    let order = order(after);
    match order.iter().map(String::as_str).collect::<Vec<_>>()[..] {
        [] | ["seq_cst" | "seqcst" | "sy" | "ish"] | ["rw", "rw"] | ["iorw", "iorw"] => Some(ALONE),
        ["acquire" | "release" | "acq_rel" | "acqrel"] => Some(LEAVE_OUT),
        // Not so after dsb, which later loads wait for too.
        ["ishst" | "ishld"] if word == "dmb" => Some(LEAVE_OUT),
        _ => None,
    }
}

/// The words of what follows a fence, without modules and what else every memory order has.
fn order(after: &[Piece]) -> Vec<String> {
    let end = after.iter().position(is_end).unwrap_or(after.len());
    let is_module = |at: usize| after.get(at + 1) == Some(&Sign(":"));
    let words = (0..end).filter(|&at| !is_module(at)).filter_map(|at| after[at].text());
    let plain = |word: &str| {
        let word = word.to_lowercase();
        let prefixes = ["memory_order_", "__atomic_"];
        prefixes.iter().find_map(|prefix| word.strip_prefix(prefix)).unwrap_or(&word).to_owned()
    };
    words.map(plain).collect()
}

/// The hint for a fence with its modules in front of it, as in `std::atomic_thread_fence()`. The first of them was taken
/// for a label.
pub fn with_path(before: &[Piece], rest: &[Piece]) -> Option<String> {
    let ([], [Sign(":"), path @ ..]) = (before, rest) else {
        return None;
    };
    let mut name = path;
    while let [Word(_), Sign(":"), Sign(":"), after @ ..] = name {
        name = after;
    }
    let [Word(word), after @ ..] = name else {
        return None;
    };
    fence(&word.to_lowercase(), after).map(String::from)
}

/// The hint for the word `fence` where it is no line, or not the whole line.
pub fn taken(before: &[Piece], rest: &[Piece], expected: &str, scope: &Scope) -> Option<String> {
    let is_due = |start: &str| expected.starts_with(start);
    let hint = match (before, rest) {
        ([Word(FENCE)], _) => return followed(rest, scope).map(String::from),
        (_, [Word(FENCE), ..]) if is_due(AT_MOST) => NO_ROOM,
        (_, [Word(FENCE), ..]) if is_due("a name for a label") => NO_LABEL,
        (_, [Word(FENCE), ..]) if is_due("a name") => NO_NAME,
        (_, [Word(FENCE), after @ ..]) if is_due("the end") => {
            return fence(FENCE, after).map(String::from);
        }
        ([.., Word("goto")], [Word(FENCE), ..]) => NO_LABEL,
        ([.., Sign("(" | ":=")], [Word(FENCE), ..]) => ALONE,
        _ => return None,
    };
    Some(hint.into())
}

/// The hint for a line that goes on after the word `fence`.
fn followed(rest: &[Piece], scope: &Scope) -> Option<&'static str> {
    let is_known = |piece: &Piece| is_location(piece, scope) || scope.register_of(*piece).is_some();
    match rest {
        [Sign(":="), ..] => Some(NO_NAME),
        [Stray('.'), Word(kind), end, ..] if kind.to_lowercase() == "tso" && is_end(end) => Some(LEAVE_OUT),
        [Word(FENCE), ..] => Some(ALONE),
        [Number(_), end, ..] if is_end(end) => Some(ALONE),
        // With a comma it may be a fence of RISC-V that orders less.
        [name, next, ..] if is_known(name) && *next != Sign(",") => Some(ALONE),
        [Sign("("), name, Sign(")"), ..] if is_known(name) => Some(ALONE),
        [Sign("(") | Word(_), ..] => fence(FENCE, rest),
        _ => None,
    }
}

/// The hint for a fence of an older model, `FADD(f, 0)` or `BCAS(f, 0 -> 0)`, whose location is not there.
pub fn undeclared(before: &[Piece], rest: &[Piece]) -> Option<String> {
    let ([.., word @ Word(_), open @ Sign("(")], [name @ Word(_), inside @ ..]) = (before, rest) else {
        return None;
    };
    let line = [&[*word, *open, *name], inside].concat();
    is_old_fence(&line).then(|| NO_LOCATION.into())
}

/// Whether these are the pieces of a line that changes nothing.
pub fn is_old_fence(line: &[Piece]) -> bool {
    matches!(
        line,
        [Word("FADD"), Sign("("), Word(_), Sign(","), Number("0"), Sign(")"), ..]
            | [
                Word("CAS" | "BCAS"),
                Sign("("),
                Word(_),
                Sign(","),
                Number("0"),
                Sign("->"),
                Number("0"),
                Sign(")"),
                ..
            ]
    )
}

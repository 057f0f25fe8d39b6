//! The memory orders of a function of C.

use crate::lexer::Piece::{self, Sign};

/// What the memory orders of an access are, beside those of a model.
#[derive(Clone, Copy, Debug, PartialEq, Eq)]
pub enum Orders {
    /// As strong, or none is given.
    Strong,
    /// Acquire or release alone: too little for an access that reads and writes.
    Half,
    /// One is relaxed, consume or not known: a line of a model would be stronger.
    Weak,
}

/// The orders in the arguments of a function, which start here: all after its operands. Some must be there if it is an
/// explicit one.
pub fn orders(inside: &[Piece], operands: usize, is_explicit: bool) -> Orders {
    let words = words(inside);
    let given: Vec<_> = words
        .iter()
        .filter(|(argument, word)| *argument >= operands || word.starts_with(PREFIX))
        .map(|(_, word)| word.strip_prefix(PREFIX).unwrap_or(word))
        .filter(|word| !matches!(*word, "std" | "memory_order"))
        .collect();
    let is_known = |order: &&str| matches!(*order, "seq_cst" | "acq_rel" | "acquire" | "release");
    if !given.iter().all(is_known) || is_explicit && given.is_empty() {
        return Orders::Weak;
    }
    // A second order is that of a compare-exchange that fails, and only reads.
    match given.first() {
        Some(&("acquire" | "release")) => Orders::Half,
        _ => Orders::Strong,
    }
}

const PREFIX: &str = "memory_order_";

/// The words and numbers up to the bracket that ends the arguments, in small letters, each with the number of its
/// argument.
fn words(inside: &[Piece]) -> Vec<(usize, String)> {
    let (mut words, mut argument, mut open) = (Vec::new(), 0, 1);
    for piece in inside {
        match piece {
            Sign("(") => open += 1,
            Sign(")") if open == 1 => break,
            Sign(")") => open -= 1,
            Sign(",") if open == 1 => argument += 1,
            _ => words.extend(piece.text().map(|text| (argument, text.to_lowercase()))),
        }
    }
    words
}

//! Words of C and of processors that have another line here, or none.

use super::fences::fence;
use super::orders::{orders, Orders};
use super::target;
use crate::instruction::Scope;
use crate::lexer::Piece::{self, Sign, Word};

/// The hint for such a word at the start of a line, after `:=`, or in a line with `if`.
pub fn hint(before: &[Piece], rest: &[Piece], scope: &Scope) -> Option<String> {
    let ([] | [_, Sign(":=")] | [Word("if")] | [Word("if"), _], [Word(word), after @ ..]) = (before, rest)
    else {
        return None;
    };
    let word = word.to_lowercase();
    let known = || fence(&word, after).or_else(|| control(&word)).map(String::from);
    match after {
        // It is meant as a name.
        [Sign(":="), ..] => None,
        [Sign("("), inside @ ..] => known().or_else(|| function(&word, inside, target(before, scope))),
        _ => known(),
    }
}

/// Loops, branches and ways out.
fn control(word: &str) -> Option<&'static str> {
    Some(match word {
        "while" | "for" | "do" => {
            "a loop is a label and 'goto'; one that only reads until it finds one value is 'wait(x = 1)'"
        }
        "else" => "there is no 'else': branches are labels and 'goto'",
        "return" => "put a label at the end of the thread, 'end:', and write 'goto end'",
        "break" | "continue" => "put a label where it goes on, and 'goto' that",
        _ => return None,
    })
}

/// Functions on atomics, with what stands after the bracket and the register that gets what they find.
fn function(word: &str, inside: &[Piece], (reg, is_free): (&str, &str)) -> Option<String> {
    let name = word.strip_prefix("atomic_").unwrap_or(word);
    let plain = name.strip_suffix("_explicit").unwrap_or(name);
    let (operands, line) = match plain {
        "load" => (1, format!("a load is a line of its own: '{reg} := x'{is_free}")),
        "store" => (2, "a store is the line 'x := 1'".into()),
        "fetch_add" => (2, format!("a fetch-and-add is the line '{reg} := FADD(x, 1)'{is_free}")),
        "compare_exchange_strong" => (3, format!("{}{is_free}", compare_exchange(reg))),
        "compare_exchange_weak" => {
            (3, format!("{}{is_free}; a weak one only in a loop that tries again", compare_exchange(reg)))
        }
        "exchange" | "xchg" | "swap" => (2, EXCHANGE.into()),
        _ => return None,
    };
    Some(match orders(inside, operands, plain != name) {
        Orders::Weak => NO_RELAXED.into(),
        Orders::Half if !matches!(plain, "load" | "store") => line + "; it is acq_rel, make it so in C too",
        _ => line,
    })
}

const NO_RELAXED: &str =
    "all accesses of a model are acquire and release: it has no relaxed ones, and a verdict says nothing about them";

const EXCHANGE: &str = "an exchange is a loop: 'rN := FADD(x, 0)', then 'rM := CAS(x, rN -> 1)', \
                        and again if rM is not rN, where rN and rM are free registers";

fn compare_exchange(reg: &str) -> String {
    format!("a compare-exchange is the line '{reg} := CAS(x, 0 -> 1)': {reg} gets the value found")
}

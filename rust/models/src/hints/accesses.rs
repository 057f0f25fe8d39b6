//! Lines with more than one access, or with another form of one.

use super::fences::{is_old_fence, IS_LINE};
use super::values::taking_away;
use super::{comes_operand, is_end, is_location, FREE, IN_A_REGISTER, IS_FREE};
use crate::instruction::Scope;
use crate::lexer::Piece::{self, Number, Sign, Stray, Word};

/// The hint for an access that is no line of its own.
pub fn hint(before: &[Piece], rest: &[Piece], scope: &Scope) -> Option<String> {
    match before {
        [Word("constants" | "registers"), ..] => None,
        _ => form(before, rest).or_else(|| several(before, rest, scope)),
    }
}

/// An access in another form.
fn form(before: &[Piece], rest: &[Piece]) -> Option<String> {
    match (before, rest) {
        (
            [.., Word(op @ ("CAS" | "BCAS")), Sign("("), Word(x), Sign(","), a],
            [Sign(","), b, Sign(")"), ..],
        ) => Some(format!("write '{op}({x}, {} -> {})'", a.text()?, b.text()?)),
        ([] | [_, Sign(":=")], [Word(op @ ("CAS" | "FADD")), ..]) => {
            let fence = if is_old_fence(rest) { IS_LINE } else { "" };
            Some(format!("a register gets the value found: '{FREE} := {op}(..)'{IS_FREE}{fence}"))
        }
        ([_, Sign(":=")], [Word(op @ ("BCAS" | "wait")), ..]) => Some(format!("'{op}' stands without ':='")),
        ([Word("wait"), Sign("("), Word(x)], [Sign(")"), ..])
        | ([Word("wait"), Sign("(")], [Stray('!'), Word(x), ..]) => Some(format!(
            "a wait is for one value, such as 'wait({x} = 0)' or 'wait({x} = 1)'; \
             where several will do, write a loop"
        )),
        _ => None,
    }
}

/// More than one access, or an access and something else.
fn several(before: &[Piece], rest: &[Piece], scope: &Scope) -> Option<String> {
    let is_location = |piece: &Piece| is_location(piece, scope);
    match (before, rest) {
        ([Word(x), Sign(":=")], [Word(y), Sign("+"), a, ..]) if x == y && !is_location(a) => sum(x, *a),
        ([Word("wait" | "BCAS"), .., last], [y, ..]) if comes_operand(last) && is_location(y) => Some(
            format!("read {y} into a free register first; if each round reads it anew, write a loop instead"),
        ),
        ([.., last], [y, ..]) if comes_operand(last) && is_location(y) => {
            Some(format!("read {y} into a free register first, in a line of its own"))
        }
        ([Word(reg), Sign(":="), x], [Sign("+" | "=" | "<") | Stray('-'), a, ..]) if is_location(x) => {
            Some(read(reg, x, *a, scope))
        }
        ([x, Sign(":="), _], [Sign("+" | "=" | "<") | Stray('-'), ..]) if is_location(x) => {
            Some(IN_A_REGISTER.into())
        }
        _ => None,
    }
}

/// For `x := x + a`. In C that is no atomic step: an FADD in its place would be stronger.
fn sum(x: &str, a: Piece) -> Option<String> {
    let a = a.text()?;
    Some(format!(
        "write '{FREE} := {x}', '{FREE} := {FREE} + {a}' and '{x} := {FREE}', on three lines; \
         if it is one atomic step, '{FREE} := FADD({x}, {a})'{IS_FREE}"
    ))
}

/// For `reg := x + a`, and for a difference or a comparison.
fn read(reg: &str, x: &Piece, a: Piece, scope: &Scope) -> String {
    if scope.register_of(a) == scope.register_of(Word(reg)) {
        return format!("a read stands alone: read {x} into a free register first");
    }
    format!("a read stands alone: write '{reg} := {}', and go on with {reg}", x.text().unwrap_or_default())
}

/// The hint for a change in place: `x++`, `x += 1`, and those that take away.
pub fn change(before: &[Piece], rest: &[Piece], scope: &Scope) -> Option<String> {
    if let ([Word(reg), Sign(":="), Word(x)], [one, two, end, ..]) = (before, rest) {
        let [added, wraps] = added(is_less(one, two)?, Number("1"), scope)?;
        return (is_end(end) && is_location(&Word(x), scope)).then(|| {
            format!(
                "if it is one atomic step, write '{reg} := FADD({x}, {added})'; \
                 else a read, a sum in a free register and a write{wraps}"
            )
        });
    }
    let (x, is_less, a) = changed(before, rest)?;
    let [added, wraps] = added(is_less, a, scope)?;
    if scope.register_of(Word(x)).is_some() {
        return Some(format!("write '{x} := {x} + {added}'{wraps}"));
    }
    // In C it depends on the type of x whether this is one atomic step.
    let sum = sum(x, if is_less { Number(&added) } else { a })?;
    is_location(&Word(x), scope).then(|| sum + &wraps)
}

/// What is changed in place, whether it gets less, and by how much.
fn changed<'a>(before: &[Piece<'a>], rest: &[Piece<'a>]) -> Option<(&'a str, bool, Piece<'a>)> {
    match (before, rest) {
        ([Word(x)], [one, two, end, ..]) | ([], [one, two, Word(x), end, ..]) if is_end(end) => {
            Some((x, is_less(one, two)?, Number("1")))
        }
        ([Word(x)], [Sign("+"), Sign("="), a, end, ..]) if is_end(end) => Some((x, false, *a)),
        ([Word(x)], [Stray('-'), Sign("="), a, end, ..]) if is_end(end) => Some((x, true, *a)),
        _ => None,
    }
}

/// Whether it is `--`; none if it is not `++` either.
fn is_less(one: &Piece, two: &Piece) -> Option<bool> {
    match (one, two) {
        (Sign("+"), Sign("+")) => Some(false),
        (Stray('-'), Stray('-')) => Some(true),
        _ => None,
    }
}

/// What is added, and after a semicolon why that takes something away, where it does.
fn added(is_less: bool, a: Piece, scope: &Scope) -> Option<[String; 2]> {
    if is_less {
        let (added, wraps) = taking_away(a.text()?, scope)?;
        return Some([added.to_string(), format!("; {wraps}")]);
    }
    scope.operand_of(a)?;
    Some([a.text()?.into(), String::new()])
}

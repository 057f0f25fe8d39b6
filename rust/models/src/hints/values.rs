//! Values that are too large, negative or in another base, and differences.

use program::limits::VALUES;

use super::comes_operand;
use crate::instruction::Scope;
use crate::lexer::Piece::{self, Number, Sign, Stray, Word};

/// The hint for something that is not quite a value.
pub fn hint(before: &[Piece], rest: &[Piece], scope: &Scope) -> Option<String> {
    match (before, rest) {
        ([Word("registers"), ..], _) => None,
        (_, [Number(digits), ..]) if !digits.bytes().all(|b| b.is_ascii_digit()) => {
            Some("numbers are written in decimal".into())
        }
        ([.., last], [Number(digits), ..]) if comes_operand(last) => Some(too_large(digits)),
        ([_, Sign(":="), _], [Stray('-'), Number(less), ..]) => Some(taking_away(less, scope)?.1),
        (
            [_, Sign(":="), _, Sign("+")] | [.., Word("FADD"), Sign("("), _, Sign(",")],
            [Stray('-'), Number(less), ..],
        ) => Some(taking_away(less, scope)?.1),
        ([.., last], [Stray('-'), Number(_), ..]) if comes_operand(last) => {
            Some("no value is negative".into())
        }
        _ => None,
    }
}

fn too_large(digits: &str) -> String {
    let most = VALUES.end() - 1;
    match digits.parse::<u8>() {
        Ok(value) if value <= most => format!("the value {value} takes 'values {}' or more", value + 1),
        _ => format!("the largest value is {most}, with 'values {}'", VALUES.end()),
    }
}

/// The value that takes so much away where it is added, and that it does.
pub fn taking_away(digits: &str, scope: &Scope) -> Option<(u8, String)> {
    let values = scope.values;
    let less = digits.parse().ok().filter(|less| (1..values).contains(less))?;
    let added = values - less;
    Some((added, format!("sums wrap: with 'values {values}', '+ {added}' takes {less} away")))
}

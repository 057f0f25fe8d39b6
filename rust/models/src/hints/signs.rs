//! Signs of other languages.

use super::{is_end, is_location, target, FREE, IN_A_REGISTER, IS_FREE};
use crate::instruction::Scope;
use crate::lexer::Piece::{self, Number, Sign, Stray, Word};
use crate::names::KEYWORDS;

/// The hint for a sign that has no place there.
pub fn hint(before: &[Piece], rest: &[Piece], scope: &Scope) -> Option<String> {
    let hint = structure(before, rest).or_else(|| other_form(before, rest)).map(String::from);
    hint.or_else(|| comparison(before, rest, scope))
        .or_else(|| not(before, rest, scope))
        .or_else(|| chain(before, rest, scope))
}

/// Comments, ends of lines, blocks and brackets.
fn structure(before: &[Piece], rest: &[Piece]) -> Option<&'static str> {
    Some(match (before, rest) {
        (_, [Stray('/'), Stray('/') | Sign("*"), ..]) => "a comment starts with #",
        (_, [Stray('-'), Stray('-'), next, ..]) if !is_end(next) => "a comment starts with #",
        (_, [Stray(';'), ..]) => "a line ends without ';', and only one stands on a line",
        (_, [Stray('&'), Word(_), ..]) => "a location stands without '&'",
        ([Word("values" | "locations" | "constants" | "registers"), ..], _) => return None,
        (_, [Stray('{' | '}'), ..]) => "there are no blocks: branches and loops are labels and 'goto'",
        ([Word("if")], [Sign("("), ..]) => "'if' takes a value or a register, without brackets",
        _ => return None,
    })
}

/// Comparisons in a wait or with two signs, and `=` in place of `:=`.
fn other_form(before: &[Piece], rest: &[Piece]) -> Option<&'static str> {
    Some(match (before, rest) {
        ([Word("wait"), Sign("("), _], [Sign("<") | Stray('!' | '>'), ..]) => {
            "a wait is for one value; where several will do, write a loop: read, compare, jump back"
        }
        ([.., Sign("=")], [Sign("="), ..]) => "a comparison has one '='",
        ([Word(word)], [Sign("="), ..]) if !KEYWORDS.contains(word) => "':=' assigns, '=' compares",
        _ => return None,
    })
}

/// Comparisons that no line makes, or not this one.
fn comparison(before: &[Piece], rest: &[Piece], scope: &Scope) -> Option<String> {
    let (reg, is_free) = target(before, scope);
    let not = |sign: &str, line: &str| {
        let first = format!("there is no '{sign}': for a {sign} b write '{reg} := {line}'");
        Some(format!("{first}, then '{reg} := {reg} = 0'{is_free}"))
    };
    match (before, rest) {
        ([Word("if"), _], [Sign("=" | "<") | Stray('!' | '>'), ..]) => Some(format!(
            "compare in a line of its own: '{FREE} := r0 = 2', then 'if {FREE} goto ..'{IS_FREE}"
        )),
        ([.., Sign("<")], [Sign("="), ..]) => not("<=", "b < a"),
        (_, [Stray('>'), Sign("="), ..]) => not(">=", "a < b"),
        (_, [Stray('>'), ..]) => Some(format!("there is no '>': for a > b write '{reg} := b < a'{is_free}")),
        (_, [Stray('!'), Sign("="), ..]) => not("!=", "a = b"),
        _ => None,
    }
}

/// For `r0 := !r1`, and where `!` stands in another line.
fn not(before: &[Piece], rest: &[Piece], scope: &Scope) -> Option<String> {
    let [Stray('!'), Word(a), ..] = rest else {
        return None;
    };
    match before {
        [Word("if")] => {
            Some(format!("there is no '!': write '{FREE} := r0 = 0', then 'if {FREE} goto ..'{IS_FREE}"))
        }
        [x, Sign(":=")] if is_location(x, scope) => Some(IN_A_REGISTER.into()),
        [Word(reg), Sign(":=")] if is_location(&Word(a), scope) => {
            Some(format!("there is no '!': write '{reg} := {a}', then '{reg} := {reg} = 0'"))
        }
        [Word(reg), Sign(":=")] if scope.operand_of(Word(a)).is_some() => {
            Some(format!("there is no '!': write '{reg} := {a} = 0'"))
        }
        _ => None,
    }
}

/// For `r0 := r1 + r2 + r3`. No line is offered where a sum stands after a comparison: in C it would come first.
fn chain(before: &[Piece], rest: &[Piece], scope: &Scope) -> Option<String> {
    let [Word(reg), Sign(":="), _, Sign(first @ ("+" | "=" | "<")), _] = before else {
        return None;
    };
    let one = "one sum or comparison stands on a line";
    match rest {
        [Sign(next @ ("+" | "=" | "<")), c @ (Word(text) | Number(text)), after, ..]
            if *first == "+" && (*next == "+" || is_end(after)) && goes_on(reg, *c, scope) =>
        {
            Some(format!("{one}: go on with '{reg} := {reg} {next} {text}' on the next"))
        }
        [Sign("+" | "=" | "<") | Stray('-'), ..] => Some(one.into()),
        _ => None,
    }
}

/// Whether a line may follow that takes this operand: it is one, and not the register that was just changed.
fn goes_on(reg: &str, operand: Piece, scope: &Scope) -> bool {
    scope.operand_of(operand).is_some() && scope.register_of(operand) != scope.register_of(Word(reg))
}

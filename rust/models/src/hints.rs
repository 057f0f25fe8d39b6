//! Hints for what is nearly right. There is one only where the line leaves little doubt about what was meant.

mod accesses;
mod fences;
mod orders;
mod signs;
mod values;
mod words_of_c;

use crate::cursor::Cursor;
use crate::instruction::{all_registers, Scope};
use crate::lexer::Piece::{self, EndOfFile, EndOfLine, Number, Sign, Stray, Word};
use crate::mistake::Mistake;
use crate::names::{is_kept_for_registers, register, Kind, FENCE, KEYWORDS};
use crate::nearest::nearest;

/// A longer hint has a very long name in it, and helps nobody.
const LONGEST_HINT: usize = 400;

/// For a write of what is no operand.
const IN_A_REGISTER: &str = "work the value out in a free register first";

/// Stands for a register that the line does not name. Only who writes the model knows which one is free, and another in
/// its place might change the verdict.
const FREE: &str = "rN";

/// What follows a hint with [`FREE`] in it.
const IS_FREE: &str = ", where rN is a free register";

/// The mistake with a hint, if there is one.
pub fn add(mistake: Mistake, cursor: &Cursor, scope: &Scope) -> Mistake {
    let [before, rest] = cursor.line_at(mistake.place);
    // Labels in front of a line are no part of it.
    let mut line = &before[..];
    while let [Word(_), Sign(":"), after @ ..] = line {
        line = after;
    }
    let is_due = |starts: &[&str]| starts.iter().any(|start| mistake.expected.starts_with(start));
    // No known word could stand where the line ends, or where a new name is due.
    let no_word = is_due(&["the end", "a name"]);
    let no_line = no_word || is_due(&["'values'", "'locations'"]);
    let hint = early(&rest)
        .filter(|_| is_due(&["'values'"]))
        .or_else(|| header(line, &rest))
        .or_else(|| fences::taken(line, &rest, &mistake.expected, scope))
        .or_else(|| fences::with_path(line, &rest).filter(|_| !no_line))
        .or_else(|| no_thread(&rest, scope).filter(|_| is_due(&["'thread'"])))
        .or_else(|| accesses::change(line, &rest, scope))
        .or_else(|| signs::hint(line, &rest, scope))
        .or_else(|| accesses::hint(line, &rest, scope))
        .or_else(|| values::hint(line, &rest, scope))
        .or_else(|| words_of_c::hint(line, &rest, scope).filter(|_| !no_line))
        .or_else(|| word(line, &rest, scope).filter(|_| !no_word))
        .or_else(|| fences::undeclared(line, &rest))
        .filter(|hint| hint.len() <= LONGEST_HINT);
    Mistake { hint, ..mistake }
}

/// Definitions in front of all else.
fn early(rest: &[Piece]) -> Option<String> {
    matches!(rest, [Word("constants" | "registers"), ..]).then(|| "definitions stand after 'values'".into())
}

/// Lines of the header, and `thread`.
fn header(before: &[Piece], rest: &[Piece]) -> Option<String> {
    let hint = match (before, rest) {
        ([Word("locations" | "constants" | "registers"), ..], [Sign(","), ..]) => {
            "no commas between the names"
        }
        ([Word("locations"), _, ..], [Sign("=" | ":="), ..]) => {
            "every location starts with 0: give 0 the meaning of the value that you start with"
        }
        ([Word("thread")], [Number(_) | Word(_) | Sign(":" | "(") | Stray('{'), ..]) => {
            "'thread' stands alone on its line; 'thread * 3' is three equal threads"
        }
        ([], [Word("constants" | "registers"), Word(_), ..]) => {
            "definitions stand in the header, or directly after 'thread'"
        }
        _ => return None,
    };
    Some(hint.into())
}

/// A line of a thread where there is no thread yet.
fn no_thread(rest: &[Piece], scope: &Scope) -> Option<String> {
    let is_line = match rest {
        [Word(word), ..] if nearest(word, KEYWORDS).is_some() => false,
        [Word("if" | "goto" | "wait" | "BCAS" | "FADD" | "CAS" | FENCE), ..]
        | [Word(_), Sign(":=" | ":"), ..] => true,
        [first, ..] => is_location(first, scope) || scope.register_of(*first).is_some(),
        [] => false,
    };
    is_line.then(|| "a line 'thread' stands before the lines of each thread".into())
}

/// Words that are nearly a word of the language, a register or a name.
fn word(before: &[Piece], rest: &[Piece], scope: &Scope) -> Option<String> {
    let [Word(word), ..] = rest else {
        return None;
    };
    if is_kept_for_registers(word) {
        return register(word).is_none().then(|| format!("the registers are {}", all_registers()));
    }
    let labels = scope.names.of_kind(Kind::Label);
    let others =
        [Kind::Location, Kind::Constant, Kind::Register].map(|kind| scope.names.of_kind(kind)).concat();
    let found = match before {
        [.., Word("goto")] => nearest(word, &labels),
        _ => nearest(word, &[KEYWORDS, &others].concat()),
    };
    found.filter(|name| !is_other_step(word, name)).map(|name| format!("did you mean '{name}'?"))
}

/// Whether a word near that of an atomic step or a fence may well be that of a weaker one: ADD and XADD are near FADD,
/// CASA and CASL near CAS.
fn is_other_step(word: &str, name: &str) -> bool {
    let ends = |text: &str| {
        let bytes = text.as_bytes();
        [bytes.first(), bytes.last()].map(|end| end.map(u8::to_ascii_lowercase))
    };
    let is_several = name == FENCE && word.eq_ignore_ascii_case("fences");
    matches!(name, "FADD" | "CAS" | "BCAS" | FENCE) && ends(word) != ends(name) && !is_several
}

/// The register in front of `:=`, or else a free one, with what is to be said of that.
fn target<'a>(before: &[Piece<'a>], scope: &Scope) -> (&'a str, &'static str) {
    match before {
        [Word(reg), Sign(":="), ..] if scope.register_of(Word(reg)).is_some() => (reg, ""),
        _ => (FREE, IS_FREE),
    }
}

/// After this piece comes a value or a register.
fn comes_operand(piece: &Piece) -> bool {
    matches!(piece, Sign(":=" | "+" | "=" | "<" | "," | "->") | Word("if"))
}

/// Here a line of C ends, before a comment.
fn is_end(piece: &Piece) -> bool {
    matches!(piece, EndOfLine | EndOfFile | Stray(';' | '/'))
}

fn is_location(piece: &Piece, scope: &Scope) -> bool {
    scope.names.find(Kind::Location, *piece).is_some()
}

impl<'a> Piece<'a> {
    /// The text of a word or a number.
    fn text(&self) -> Option<&'a str> {
        match self {
            Word(text) | Number(text) => Some(text),
            _ => None,
        }
    }
}

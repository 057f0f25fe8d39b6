//! From a text to its words, numbers and signs, each with its place.

use std::fmt;

use crate::mistake::Place;
use crate::text::{shortened, shown};

/// A piece of a text.
#[derive(Clone, Copy, Debug, PartialEq, Eq)]
pub enum Piece<'a> {
    /// A letter or `_`, then letters, digits and `_`.
    Word(&'a str),
    /// Digits; or a number of C in another base, which no rule takes.
    Number(&'a str),
    /// One of `SIGNS`.
    Sign(&'static str),
    /// A character that no piece starts with. No rule expects it, so it is reported where it stands.
    Stray(char),
    EndOfLine,
    EndOfFile,
}

impl fmt::Display for Piece<'_> {
    fn fmt(&self, f: &mut fmt::Formatter) -> fmt::Result {
        match self {
            Piece::Word(text) | Piece::Number(text) => write!(f, "'{}'", shortened(text)),
            Piece::Sign(text) => write!(f, "'{text}'"),
            Piece::Stray(character) => f.write_str(&shown(*character)),
            Piece::EndOfLine => write!(f, "the end of the line"),
            Piece::EndOfFile => write!(f, "the end of the file"),
        }
    }
}

/// A piece and where it starts.
#[derive(Clone, Copy, Debug, PartialEq, Eq)]
pub struct Token<'a> {
    pub piece: Piece<'a>,
    pub place: Place,
    /// Where it starts, in bytes from the start of the text.
    pub offset: usize,
}

/// The signs, a longer one before its own start.
const SIGNS: &[&str] = &[":=", ":", "->", "+", "=", "<", "(", ")", ",", "*"];

/// All tokens of the text; the last is the end of the file, and only that one is.
pub fn tokens(text: &str) -> Vec<Token<'_>> {
    let mut tokens = Vec::new();
    let mut place = Place::START;
    let mut rest = text;
    while let Some(first) = rest.chars().next() {
        let (piece, length) = piece_at(rest, first);
        if let Some(piece) = piece {
            tokens.push(Token { piece, place, offset: text.len() - rest.len() });
        }
        if first == '\n' {
            place = Place { line: place.line + 1, column: 1 };
        } else {
            place.column += rest[..length].chars().count();
        }
        rest = &rest[length..];
    }
    tokens.push(Token { piece: Piece::EndOfFile, place, offset: text.len() });
    tokens
}

/// The piece at the start of the text, none for a blank or a comment, and its length in bytes.
fn piece_at(text: &str, first: char) -> (Option<Piece<'_>>, usize) {
    let run = |part_of: fn(char) -> bool| text.find(|c| !part_of(c)).unwrap_or(text.len());
    if let Some(sign) = SIGNS.iter().find(|sign| text.starts_with(**sign)) {
        return (Some(Piece::Sign(sign)), sign.len());
    }
    match first {
        '\n' => (Some(Piece::EndOfLine), 1),
        // A CR stands before LF only.
        ' ' | '\t' | '\r' => (None, 1),
        '#' => (None, run(|c| c != '\n')),
        '0'..='9' => {
            let length =
                if has_base(text) { run(|c| c.is_ascii_alphanumeric()) } else { run(|c| c.is_ascii_digit()) };
            (Some(Piece::Number(&text[..length])), length)
        }
        'a'..='z' | 'A'..='Z' | '_' => {
            let length = run(|c| c.is_ascii_alphanumeric() || c == '_');
            (Some(Piece::Word(&text[..length])), length)
        }
        _ => (Some(Piece::Stray(first)), first.len_utf8()),
    }
}

/// Whether the text starts with a number such as `0x1` or `0b1`. Taken apart, it would be a 0 and a name.
fn has_base(text: &str) -> bool {
    let digit = |prefix: &str| text.strip_prefix(prefix)?.chars().next();
    ["0x", "0X"].iter().any(|prefix| digit(prefix).is_some_and(|c| c.is_ascii_hexdigit()))
        || ["0b", "0B"].iter().any(|prefix| digit(prefix).is_some_and(|c| matches!(c, '0' | '1')))
}

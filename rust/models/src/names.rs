//! What a name may be, and what the names of a text stand for.

use std::collections::HashMap;
use std::fmt;

use program::limits::{LOCATIONS, REGISTERS};

use crate::lexer::{Piece, Token};
use crate::mistake::Mistake;
use crate::text::shortened;

/// The words with a meaning of their own.
pub const KEYWORDS: &[&str] = &[
    "values",
    "locations",
    "constants",
    "registers",
    "thread",
    "if",
    "goto",
    "wait",
    "FADD",
    "CAS",
    "BCAS",
    FENCE,
];

/// The line that is a fence. As no location has this name, the one of the fences is called so.
pub const FENCE: &str = "fence";

/// The register that the word names: r0 to r3.
pub fn register(word: &str) -> Option<u8> {
    (0..REGISTERS).find(|&reg| register_name(reg) == word)
}

/// The name of a register.
pub fn register_name(reg: u8) -> String {
    format!("r{reg}")
}

/// All of r and a number is kept for registers, so that r4 is never taken for something else.
pub fn is_kept_for_registers(word: &str) -> bool {
    let is_number = |digits: &str| !digits.is_empty() && digits.bytes().all(|b| b.is_ascii_digit());
    word.strip_prefix('r').is_some_and(is_number)
}

/// The kinds of things that a text names.
#[derive(Clone, Copy, Debug, PartialEq, Eq)]
pub enum Kind {
    /// Its number is that of the location.
    Location,
    /// Its number is the value.
    Constant,
    /// Its number is that of the register.
    Register,
    /// Its number is that of the line, in the thread that the label belongs to.
    Label,
}

impl fmt::Display for Kind {
    fn fmt(&self, f: &mut fmt::Formatter) -> fmt::Result {
        f.write_str(match self {
            Kind::Location => "a location",
            Kind::Constant => "a constant",
            Kind::Register => "a register",
            Kind::Label => "a label",
        })
    }
}

/// A name that nothing else has, for a thing of that kind.
pub struct NewName<'a> {
    name: &'a str,
    kind: Kind,
    line: usize,
}

/// What a name stands for, the line of the text that says so, and how many names came before it.
#[derive(Clone, Copy)]
struct Named {
    kind: Kind,
    number: u8,
    line: usize,
    order: usize,
}

/// The names that hold at a place of the text. Each names one thing only.
#[derive(Clone, Default)]
pub struct Names<'a>(HashMap<&'a str, Named>);

impl<'a> Names<'a> {
    /// The number of the thing of that kind that the piece names, if it does.
    pub fn find(&self, kind: Kind, piece: Piece) -> Option<u8> {
        match piece {
            Piece::Word(word) => {
                self.0.get(word).filter(|named| named.kind == kind).map(|named| named.number)
            }
            _ => None,
        }
    }

    /// The token as a new name: it is no word of the language, no register, and no other name.
    pub fn unused(&self, token: Token<'a>, kind: Kind) -> Result<NewName<'a>, Mistake> {
        let mistake = token.mistake(format!("a name for {kind}"));
        let Piece::Word(name) = token.piece else {
            return Err(mistake);
        };
        match self.why_taken(name) {
            Some(reason) => Err(Mistake { found: format!("{}, {reason}", token.piece), ..mistake }),
            None => Ok(NewName { name, kind, line: token.place.line }),
        }
    }

    fn why_taken(&self, name: &str) -> Option<String> {
        if KEYWORDS.contains(&name) {
            Some("a word of the language".into())
        } else if is_kept_for_registers(name) {
            Some("kept for registers".into())
        } else {
            let Named { kind, line, .. } = self.0.get(name)?;
            Some(format!("the name of {kind} on line {line}"))
        }
    }

    /// From here on the name stands for the thing of that number.
    pub fn add(&mut self, new: NewName<'a>, number: u8) {
        let NewName { name, kind, line } = new;
        self.0.insert(name, Named { kind, number, line, order: self.0.len() });
    }

    /// The names of one kind, in the order of the text.
    pub fn of_kind(&self, kind: Kind) -> Vec<&'a str> {
        let mut names: Vec<_> = self.0.iter().filter(|(_, named)| named.kind == kind).collect();
        names.sort_by_key(|(_, named)| named.order);
        names.into_iter().map(|(name, _)| *name).collect()
    }
}

/// A thing that the text may name, with such names in brackets. All locations are shown; a longer list is cut.
pub fn with_names(thing: &str, names: &[&str]) -> String {
    const SHOWN: usize = *LOCATIONS.end() as usize;
    let mut shown: Vec<_> = names.iter().take(SHOWN).map(|name| shortened(name)).collect();
    if names.len() > SHOWN {
        shown.push("..".into());
    }
    match names {
        [] => thing.into(),
        _ => format!("{thing} ({})", shown.join(", ")),
    }
}

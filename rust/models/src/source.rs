//! A model as its writer knows it: by the names and the lines of its text.

use program::Program;

use crate::names::FENCE;
use crate::text::text_of;
use crate::{disassemble, parser, Mistake};

/// A program with the names and the lines of the text that it was read from.
#[derive(Clone, Debug, PartialEq, Eq)]
pub struct Source {
    /// The program.
    pub program: Program,
    /// The name of each location but that of the fences.
    pub locations: Vec<String>,
    /// For each thread each of its lines, as it is written.
    pub statements: Vec<Vec<Statement>>,
}

/// A line of a thread, as it is written.
#[derive(Clone, Debug, PartialEq, Eq)]
pub struct Statement {
    /// The line of the text, from 1.
    pub line: usize,
    /// What stands there, without labels, comment and blanks around it.
    pub text: String,
}

impl Source {
    /// The model that a text is, or its first mistake.
    pub fn of_text(text: &[u8]) -> Result<Source, Mistake> {
        parser::parse(text_of(text)?)
    }

    /// The name of a location by its number, which may be that of the fences. Nothing where there is no such location.
    pub fn name(&self, location: usize) -> Option<&str> {
        self.names().nth(location)
    }

    /// The names of all locations that a run has: after the others that of the fences, where the model has some.
    pub fn names(&self) -> impl Iterator<Item = &str> {
        let fence = self.program.has_fence().then_some(FENCE);
        self.locations.iter().map(String::as_str).chain(fence)
    }

    /// Whether a location is that of the fences.
    pub fn is_fence(&self, location: usize) -> bool {
        self.program.has_fence() && location == self.locations.len()
    }

    /// Program bytes as the model that they disassemble to, or the number of the first check of document 01 that they
    /// fail.
    pub fn of_bytes(bytes: &[u8]) -> Result<Source, u8> {
        let text = disassemble(bytes)?;
        Ok(parser::parse(&text).expect("a disassembly assembles"))
    }
}

//! What is wrong in a model, and where.

use std::fmt;

/// A place in a text: lines and columns count from 1, a column is one character.
#[derive(Clone, Copy, Debug, PartialEq, Eq)]
pub struct Place {
    /// The line.
    pub line: usize,
    /// The column.
    pub column: usize,
}

impl Place {
    /// Where a text starts.
    pub(crate) const START: Place = Place { line: 1, column: 1 };

    /// Where the text goes on after this start of it.
    pub(crate) fn after(start: &str) -> Place {
        let last_line = start.rsplit('\n').next().unwrap_or_default();
        Place { line: start.matches('\n').count() + 1, column: last_line.chars().count() + 1 }
    }
}

impl fmt::Display for Place {
    fn fmt(&self, f: &mut fmt::Formatter) -> fmt::Result {
        write!(f, "{}:{}", self.line, self.column)
    }
}

/// A mistake in a model: what was expected at a place, and what was found there. It is shown on one line, and a hint on
/// a second one.
#[derive(Clone, Debug, PartialEq, Eq)]
pub struct Mistake {
    /// Where the text goes wrong.
    pub place: Place,
    /// What could have stood there.
    pub expected: String,
    /// What stands there.
    pub found: String,
    /// What may help, where what stands there is nearly right.
    pub hint: Option<String>,
}

impl fmt::Display for Mistake {
    fn fmt(&self, f: &mut fmt::Formatter) -> fmt::Result {
        write!(f, "{}: expected {}, found {}", self.place, self.expected, self.found)?;
        self.hint.iter().try_for_each(|hint| write!(f, "\n  hint: {hint}"))
    }
}

//! How many steps there are from the situations of a program, and how many of them the proved checker makes. They are
//! counted after a search, by the steps of the plain one.

use plain::{turns, Turn};
use program::{Line, Program};

/// Steps from all situations of a program.
#[derive(Clone, Copy, Debug, Default, PartialEq, Eq)]
pub struct Successors {
    /// All steps that there are: the plain checker makes each.
    pub all: usize,
    /// Those that the proved checker makes.
    pub made: usize,
}

impl Successors {
    /// Those from the places of a table that is full of them.
    pub fn of(program: &Program, table: &[u8]) -> Successors {
        let mut counted = Successors::default();
        turns(program, table, |turn| {
            counted.all += 1;
            counted.made += usize::from(!is_skipped(program, &turn));
        });
        counted
    }
}

/// Whether the proved checker skips the step: a later thread led here, by a line that is independent of this one. So
/// the two lead to the same situation in the other order too, in which the search has been there before.
pub fn is_skipped(program: &Program, turn: &Turn) -> bool {
    turn.last.is_some_and(|(thread, line)| thread > turn.thread && are_independent(program, line, turn.line))
}

/// Whether two lines access no location in common. Two fences do: their own.
fn are_independent(program: &Program, one: Line, other: Line) -> bool {
    match (program.accessed(one), program.accessed(other)) {
        (Some(one), Some(other)) => one != other,
        _ => true,
    }
}

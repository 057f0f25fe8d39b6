//! How the command ends.

use answer::Report;

/// An exit status. Of several files the first of these that one of them has counts.
#[derive(Clone, Copy, Debug, PartialEq, Eq, PartialOrd, Ord)]
pub enum Status {
    /// NO, a mistake in a model, a failed read or write, or a verdict that was not expected.
    Failed,
    /// NR
    NotRobust,
    /// FU
    Full,
    /// RB, or every verdict as expected.
    Good,
}

impl Status {
    /// That of a report. What is not known is no success.
    pub fn of(report: &Report) -> Status {
        match report {
            Report::Robust { .. } => Status::Good,
            Report::NotRobust { .. } => Status::NotRobust,
            Report::Full { .. } => Status::Full,
            _ => Status::Failed,
        }
    }

    /// The number that the caller gets.
    pub fn number(self) -> u8 {
        match self {
            Status::Good => 0,
            Status::Failed => command::FAILED,
            Status::NotRobust => 10,
            Status::Full => 11,
        }
    }
}

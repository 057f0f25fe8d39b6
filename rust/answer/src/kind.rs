//! The kinds of an access, and their numbers.

/// The kind of an access.
#[derive(Clone, Copy, Debug, PartialEq, Eq)]
pub enum Kind {
    /// R: a read. So is a CAS that fails.
    Read,
    /// W: a write.
    Write,
    /// M: a read-modify-write.
    Update,
}

impl Kind {
    /// The kinds by their numbers, from 1. In a trace 0 stands for no access.
    pub(crate) const ALL: [Kind; 3] = [Kind::Read, Kind::Write, Kind::Update];

    /// The kind of a number, if it is one.
    pub(crate) fn of(number: u64) -> Option<Kind> {
        Kind::ALL.into_iter().find(|kind| u64::from(kind.number()) == number)
    }

    /// The number of the kind.
    pub(crate) fn number(self) -> u8 {
        1 + Kind::ALL.iter().take_while(|&&other| other != self).count() as u8
    }
}

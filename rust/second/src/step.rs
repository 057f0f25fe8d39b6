//! What the steps of a run show: document 02, Point 1.

use crate::thread::Kind;

/// A step of a run.
#[derive(Clone, Copy, Debug, PartialEq, Eq)]
pub struct Step {
    /// Its thread, counted from 1.
    pub thread: usize,
    /// The access that it made; none for a local line.
    pub access: Option<Access>,
}

/// What is shown of an access.
#[derive(Clone, Copy, Debug, PartialEq, Eq)]
pub struct Access {
    /// Its kind.
    pub kind: Kind,
    /// Its location.
    pub location: usize,
    /// "R with the value read, W and M with the value written".
    pub value: u8,
}

impl Step {
    /// "The trace uses four bytes a step".
    pub const BYTES: usize = 4;

    /// Its bytes: "thread, kind, location, value", "with kinds 0 to 3 for L, R, W, M", and "L 0 0 for a local line".
    pub fn bytes(&self) -> [u8; Step::BYTES] {
        let thread = self.thread as u8;
        let Some(Access { kind, location, value }) = self.access else {
            return [thread, 0, 0, 0];
        };
        let kind = match kind {
            Kind::Read => 1,
            Kind::Write => 2,
            Kind::Update => 3,
        };
        [thread, kind, location as u8, value]
    }
}

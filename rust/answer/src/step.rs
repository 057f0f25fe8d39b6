//! The steps of a trace, as data and in its bytes.

use crate::kind::Kind;

/// A step of the run that a trace has.
#[derive(Clone, Copy, Debug, PartialEq, Eq)]
pub struct Step {
    /// The thread that takes it, from 1.
    pub thread: u8,
    /// The access that it makes; none where its line is local, which ops 1 to 4 are.
    pub access: Option<Access>,
}

/// What a step shows of its access.
#[derive(Clone, Copy, Debug, PartialEq, Eq)]
pub struct Access {
    /// Its kind.
    pub kind: Kind,
    /// Its location, from 0; for a fence the one after the named ones.
    pub location: u8,
    /// The value that it reads, of a read; else the value that it writes.
    pub value: u8,
}

/// The kind of a step without access. Its location and its value are 0.
const LOCAL: u8 = 0;

impl Step {
    /// How many bytes of a trace a step has.
    pub const BYTES: usize = 4;

    /// Its bytes: thread, kind, location, value.
    pub fn bytes(self) -> [u8; Step::BYTES] {
        match self.access {
            Some(Access { kind, location, value }) => [self.thread, kind.number(), location, value],
            None => [self.thread, LOCAL, 0, 0],
        }
    }

    /// The step that the bytes are, if they are one.
    fn of(bytes: [u8; Step::BYTES]) -> Option<Step> {
        let access = match bytes {
            [0, ..] => return None,
            [_, LOCAL, 0, 0] => None,
            [_, kind, location, value] => Some(Access { kind: Kind::of(kind.into())?, location, value }),
        };
        Some(Step { thread: bytes[0], access })
    }
}

/// The steps that these bytes of a trace are, if they are whole steps one after the other. Of the trace of a report
/// [`Report::NotRobust`](crate::Report::NotRobust) these are its first `steps` times [`Step::BYTES`] bytes.
pub fn steps_in(trace: &[u8]) -> Option<Vec<Step>> {
    trace.chunks(Step::BYTES).map(|bytes| Step::of(bytes.try_into().ok()?)).collect()
}

#[cfg(test)]
mod tests {
    use super::{steps_in, Access, Kind, Step};

    /// A step of each kind with its bytes.
    fn all() -> [([u8; 4], Step); 4] {
        let step = |kind, value| Step { thread: 8, access: Some(Access { kind, location: 15, value }) };
        [
            ([2, 0, 0, 0], Step { thread: 2, access: None }),
            ([8, 1, 15, 0], step(Kind::Read, 0)),
            ([8, 2, 15, 14], step(Kind::Write, 14)),
            ([8, 3, 15, 1], step(Kind::Update, 1)),
        ]
    }

    #[test]
    fn each_byte_of_a_step_has_its_place() {
        for (bytes, step) in all() {
            assert_eq!(Step::of(bytes), Some(step));
            assert_eq!(step.bytes(), bytes);
        }
    }

    #[test]
    fn a_trace_is_read_step_by_step() {
        let (bytes, steps): (Vec<_>, Vec<_>) = all().into_iter().unzip();
        assert_eq!(steps_in(&bytes.concat()), Some(steps));
        assert_eq!(steps_in(&[]), Some(vec![]));
    }

    #[test]
    fn other_bytes_are_no_step() {
        for bytes in [[0, 0, 0, 0], [0, 1, 0, 0], [1, 4, 0, 0], [1, 255, 0, 0], [1, 0, 1, 0], [1, 0, 0, 1]] {
            assert_eq!(Step::of(bytes), None, "{bytes:?}");
            assert_eq!(steps_in(&[[1, 0, 0, 0], bytes].concat()), None, "{bytes:?}");
        }
    }

    #[test]
    fn a_step_that_is_cut_short_is_none() {
        let trace = [1, 2, 0, 1, 1, 1, 1, 0];
        for length in 0..=trace.len() {
            assert_eq!(steps_in(&trace[..length]).is_some(), length % 4 == 0, "{length}");
        }
    }
}

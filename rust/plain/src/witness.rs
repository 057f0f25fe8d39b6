//! The witness test on the bytes of a place: `crates/rules/specs/Test.antt`.

use answer::Kind;
use program::Line;

use crate::layout::{set, SET};
use crate::step::Stepper;

/// An access that may use a stale write.
pub struct Witness {
    /// Counted from 0.
    pub thread: usize,
    pub kind: Kind,
    pub location: usize,
    pub value: u8,
}

/// What an access may do with an older write.
struct Allowed {
    location: u8,
    /// The values that it may read.
    read: u16,
    /// The values that it may go directly after, and as what.
    follow: u16,
    kind: Kind,
}

const NONE: u16 = 0;
const EVERY: u16 = u16::MAX;

impl Stepper<'_> {
    /// "the lowest thread with a witness", with "the smallest stale value of w that it may use".
    pub fn witness(&self, place: &[u8]) -> Option<Witness> {
        (0..self.layout.threads).find_map(|t| self.witness_of(place, t))
    }

    fn witness_of(&self, place: &[u8], t: usize) -> Option<Witness> {
        let Allowed { location, read, follow, kind } = self.allowed(place, t, self.line(place, t)?)?;
        if set(place, self.layout.known_to_thread + SET * t) >> location & 1 == 0 {
            return None;
        }
        let location = usize::from(location);
        let entry = t * self.layout.row() + SET * location;
        let reads = set(place, self.layout.readable_by_thread + entry) & read;
        let follows = set(place, self.layout.writable_by_thread + entry) & follow;
        let stale = reads | follows;
        if stale == 0 {
            return None;
        }
        let value = stale.trailing_zeros() as u8;
        let kind = if reads >> value & 1 == 1 { Kind::Read } else { kind };
        Some(Witness { thread: t, kind, location, value })
    }

    /// What the line of thread t allows, if it makes an access.
    fn allowed(&self, place: &[u8], t: usize, line: Line) -> Option<Allowed> {
        let alone = |operand| 1 << self.operand(place, t, operand);
        let (location, read, follow, kind) = match line {
            Line::Sum { .. } | Line::Equal { .. } | Line::Less { .. } | Line::Jump { .. } => return None,
            Line::Write { location, .. } => (location, NONE, EVERY, Kind::Write),
            Line::Read { location, .. } => (location, EVERY, NONE, Kind::Read),
            Line::Fadd { location, .. } => (location, NONE, EVERY, Kind::Update),
            Line::Cas { location, a, .. } => (location, !alone(a), alone(a), Kind::Update),
            Line::Wait { location, a } => (location, alone(a), NONE, Kind::Read),
            Line::Bcas { location, a, .. } => (location, NONE, alone(a), Kind::Update),
            Line::Fence => (self.fence(), NONE, EVERY, Kind::Update),
        };
        Some(Allowed { location, read, follow, kind })
    }
}

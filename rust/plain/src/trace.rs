//! The steps that lead to a place, by going back from place to place.

use answer::{Access, Kind, Step};
use program::Line;

use crate::layout::BY;
use crate::step::Stepper;

/// The places of a search that has ended. They are numbered from 1.
pub struct Places<'a> {
    pub stepper: Stepper<'a>,
    pub table: &'a [u8],
}

impl Places<'_> {
    /// How many steps lead to a place.
    pub fn steps_to(&self, number: usize) -> usize {
        let before = |&number: &usize| self.back(number).map(|(from, _)| from);
        std::iter::successors(Some(number), before).count() - 1
    }

    /// Fills the trace with the steps that lead to a place; it has the bytes of each.
    pub fn lay(&self, trace: &mut [u8], mut number: usize) {
        for bytes in trace.chunks_exact_mut(Step::BYTES).rev() {
            if let Some((from, thread)) = self.back(number) {
                let access = self.access(from, thread, number);
                bytes.copy_from_slice(&Step { thread, access }.bytes());
                number = from;
            }
        }
    }

    /// The place that a place was reached from, and the thread of the step, from 1; nothing for the first.
    pub fn back(&self, number: usize) -> Option<(usize, u8)> {
        let place = self.place(number);
        let from = place[..BY].iter().rev().fold(0, |from, &byte| 256 * from + usize::from(byte));
        (from != 0).then_some((from, place[BY]))
    }

    /// The access of a thread's step from one place to another; none for a local line. "A failed CAS is a plain read."
    fn access(&self, from: usize, thread: u8, to: usize) -> Option<Access> {
        let (place, t) = (self.place(from), usize::from(thread) - 1);
        let (kind, location) = match self.stepper.line(place, t)? {
            Line::Sum { .. } | Line::Equal { .. } | Line::Less { .. } | Line::Jump { .. } => return None,
            Line::Write { location, .. } => (Kind::Write, location),
            Line::Read { location, .. } | Line::Wait { location, .. } => (Kind::Read, location),
            Line::Cas { location, a, .. }
                if self.stepper.value(place, location) != self.stepper.operand(place, t, a) =>
            {
                (Kind::Read, location)
            }
            Line::Fadd { location, .. } | Line::Cas { location, .. } | Line::Bcas { location, .. } => {
                (Kind::Update, location)
            }
            Line::Fence => (Kind::Update, self.stepper.fence()),
        };
        // What is written is there after the step, and what is read still is.
        Some(Access { kind, location, value: self.stepper.value(self.place(to), location) })
    }

    /// The bytes of a place.
    pub fn place(&self, number: usize) -> &[u8] {
        let size = self.stepper.layout.size;
        &self.table[(number - 1) * size..][..size]
    }
}

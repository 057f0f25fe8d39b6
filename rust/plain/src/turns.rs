//! The steps at the places of a search that has ended, for who counts them. No search has a part in it.

use program::{Line, Program};

use crate::layout::{Layout, LINES};
use crate::step::Stepper;
use crate::trace::Places;

/// A step that a thread has at a place.
pub struct Turn<'a> {
    /// The number of the place, from 1.
    pub place: usize,
    /// The thread, from 1.
    pub thread: u8,
    /// The line that it takes.
    pub line: Line,
    /// The thread whose step led to the place, and the line that it took there; none at the first place.
    pub last: Option<(u8, Line)>,
    /// The situation after the step, in the bytes of `docs/LAYOUT.md`.
    pub next: &'a [u8],
}

/// Shows the steps of all threads at all places of a table that is full of them, in the order of the search.
pub fn turns(program: &Program, table: &[u8], mut show: impl FnMut(Turn)) {
    let layout = &Layout::of(program);
    let places = Places { stepper: Stepper { program, layout }, table };
    let mut next = vec![0; layout.size];
    for number in 1..=table.len() / layout.size {
        let place = places.place(number);
        let last = places.last(number);
        for thread in 1..=layout.threads as u8 {
            let Some(line) = places.line(number, thread) else { continue };
            if places.stepper.step(place, usize::from(thread) - 1, &mut next) {
                show(Turn { place: number, thread, line, last, next: &next[LINES..] });
            }
        }
    }
}

impl Places<'_> {
    /// The step that led to a place.
    fn last(&self, number: usize) -> Option<(u8, Line)> {
        let (from, thread) = self.back(number)?;
        Some((thread, self.line(from, thread)?))
    }

    /// The next line of a thread, which is counted from 1.
    fn line(&self, number: usize, thread: u8) -> Option<Line> {
        self.stepper.line(self.place(number), usize::from(thread) - 1)
    }
}

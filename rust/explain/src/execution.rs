//! The execution graph of a report, as data.

use answer::Kind;

/// The steps of a reported run, the stale access after them, and the graph that they build.
#[derive(Clone, Debug, PartialEq, Eq)]
pub struct Execution {
    /// The steps of the report, and last the stale access.
    pub steps: Vec<Taken>,
    /// The events: first the starting write of each location, then those of the steps in their order. The last is the
    /// stale access.
    pub events: Vec<Event>,
    /// For each location the places in `events` of its writes, in modification order.
    pub orders: Vec<Vec<usize>>,
    /// The write that the stale access picks: it reads it, comes directly after it, or both.
    pub picked: usize,
    /// The write to its location that was newest before it.
    pub newest: usize,
}

/// A step of a run.
#[derive(Clone, Copy, Debug, PartialEq, Eq)]
pub struct Taken {
    /// The thread, from 0.
    pub thread: usize,
    /// The line of the thread, from 0.
    pub line: usize,
    /// The event that it adds, a place in [`Execution::events`]; none for a local line.
    pub event: Option<usize>,
}

/// An event.
#[derive(Clone, Copy, Debug, PartialEq, Eq)]
pub struct Event {
    /// The step that made it, a place in [`Execution::steps`]; none for a starting write.
    pub step: Option<usize>,
    /// Its thread, from 0; none for a starting write.
    pub thread: Option<usize>,
    /// Its kind.
    pub kind: Kind,
    /// Its location.
    pub location: usize,
    /// The value that it reads, if it does.
    pub read: Option<u8>,
    /// The value that it writes, if it does.
    pub written: Option<u8>,
    /// The write that it reads, a place in [`Execution::events`].
    pub source: Option<usize>,
}

impl Execution {
    /// The stale access: the last event.
    pub fn stale(&self) -> usize {
        self.events.len() - 1
    }

    /// The step that made an event; none for a starting write.
    pub fn step_of(&self, event: usize) -> Option<&Taken> {
        self.steps.get(self.events[event].step?)
    }
}

//! The situation of a state, read off its graph: document 01, section "Situations".

use program::limits::{LOCATIONS, REGISTERS};

use crate::events::Events;
use crate::state::{History, State};
use crate::thread::Thread;

/// A set of locations or of values, one bit for each member: the lowest for 0.
pub type Set = u16;

/// As many locations as a program has at most.
const WIDTH: usize = *LOCATIONS.end() as usize;

/// "A situation is the line and registers of each thread, the value of each location, and seven families of sets".
#[derive(Clone, Debug, PartialEq, Eq, Hash)]
pub struct Situation {
    /// What belongs to each thread.
    pub threads: Vec<ThreadPart>,
    /// What belongs to each location.
    pub locations: Vec<LocationPart>,
}

/// What belongs to a thread. The rows have a set for each location, and nothing past the last one.
#[derive(Clone, Copy, Debug, PartialEq, Eq, Hash)]
pub struct ThreadPart {
    /// Its line.
    pub line: u8,
    /// Its registers.
    pub registers: [u8; REGISTERS as usize],
    /// "the locations whose newest write is, or comes in SC order before, one of its events, starting writes counted
    /// with every thread"
    pub seen: Set,
    /// For each location y "the values of writes to y that aren't newest and that it could still read".
    pub readable: [Set; WIDTH],
    /// The same, "leaving out writes directly followed by a read-modify-write".
    pub writable: [Set; WIDTH],
}

/// What belongs to a location. The rows are as those of a thread.
#[derive(Clone, Copy, Debug, PartialEq, Eq, Hash)]
pub struct LocationPart {
    /// Its value: that of its newest write.
    pub value: u8,
    /// The locations whose newest write is, or comes in SC order before, its newest write.
    pub seen_by_newest: Set,
    /// The same with any access to it.
    pub seen_by_any: Set,
    /// For each location y the values that its "newest write could still have seen, by the same rule with that one
    /// event".
    pub readable: [Set; WIDTH],
    /// The same, without writes directly followed by a read-modify-write.
    pub writable: [Set; WIDTH],
}

impl Situation {
    /// The situation of a state.
    pub fn of(state: &State) -> Situation {
        let history = &*state.history;
        let graph = &history.graph;
        let starts = history.locations(|newest| graph.is_start(newest));
        let thread = |(thread, &Thread { line, registers }): (usize, &Thread)| {
            let events = history.events_of(thread);
            let (readable, writable) = history.values(&events);
            ThreadPart { line, registers, seen: starts | history.seen(&events), readable, writable }
        };
        let location = |location| {
            let newest = graph.newest(location);
            let mut alone = Events::none(graph.size());
            alone.insert(newest);
            let (readable, writable) = history.values(&alone);
            LocationPart {
                value: graph.written(newest),
                seen_by_newest: history.seen(&alone),
                seen_by_any: history.seen(&graph.those(|event| event.location == location)),
                readable,
                writable,
            }
        };
        Situation {
            threads: state.threads.iter().enumerate().map(thread).collect(),
            locations: (0..graph.locations()).map(location).collect(),
        }
    }
}

impl History {
    /// The locations whose newest write is, or comes in SC order before, one of the events.
    fn seen(&self, events: &Events) -> Set {
        let before = self.before_in_sc_order(events);
        self.locations(|newest| events.contains(newest) || before.contains(newest))
    }

    /// The locations for whose newest write the question holds.
    fn locations(&self, question: impl Fn(usize) -> bool) -> Set {
        let members = (0..self.graph.locations()).filter(|&location| question(self.graph.newest(location)));
        members.fold(0, |set, location| set | 1 << location)
    }

    /// For each location the values of its writes that aren't newest and that may be read when no later write may be
    /// one of the events or happen before one; and of these writes those that are not directly followed by a
    /// read-modify-write.
    fn values(&self, events: &Events) -> ([Set; WIDTH], [Set; WIDTH]) {
        let hidden = events.clone().or(&self.happening_before(events));
        let (mut readable, mut writable) = ([0; WIDTH], [0; WIDTH]);
        for location in 0..self.graph.locations() {
            for (place, &write) in self.graph.order(location).iter().enumerate() {
                let later = self.graph.later(location, place);
                let is_newest = later.is_empty();
                if !is_newest && !later.iter().any(|&write| hidden.contains(write)) {
                    let value = 1 << self.graph.written(write);
                    readable[location] |= value;
                    if !self.graph.update_follows(later) {
                        writable[location] |= value;
                    }
                }
            }
        }
        (readable, writable)
    }
}

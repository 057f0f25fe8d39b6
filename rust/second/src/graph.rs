//! Execution graphs: document 01, section "Graphs".

use crate::events::Events;
use crate::step::Access;
use crate::thread::Action;

/// "An execution graph has events [..], reads-from, and for each location a total modification order of its writes."
#[derive(Clone)]
pub struct Graph {
    /// "one starting write of 0 per location, then each thread's reads, writes and read-modify-writes in order": an
    /// event is known by its place here, a starting write by its location. A thread's later event stands later.
    events: Vec<Event>,
    /// The modification order of each location, the newest write last.
    orders: Vec<Vec<usize>>,
}

/// An event of a graph.
#[derive(Clone, Copy)]
pub struct Event {
    /// The thread that made it, counted from 0; none for a starting write.
    pub thread: Option<usize>,
    /// Its location.
    pub location: usize,
    /// What it is.
    pub action: Action,
    /// Reads-from: the write that it reads, where it reads one.
    pub source: Option<usize>,
}

impl Graph {
    /// "the graph of the starting writes alone"
    pub fn start(locations: usize) -> Graph {
        let start = |location| Event { thread: None, location, action: Action::Write(0), source: None };
        Graph {
            events: (0..locations).map(start).collect(),
            orders: (0..locations).map(|location| vec![location]).collect(),
        }
    }

    /// Adds the thread's last event with the predecessor write w, and says which it is: "a read reads w, a write goes
    /// directly after w, a read-modify-write does both".
    pub(crate) fn add(&mut self, thread: usize, location: usize, action: Action, w: usize) -> usize {
        let event = self.events.len();
        let source = match action {
            Action::Read | Action::Update(_) => Some(w),
            Action::Write(_) => None,
        };
        self.events.push(Event { thread: Some(thread), location, action, source });
        if let Action::Write(_) | Action::Update(_) = action {
            let order = &mut self.orders[location];
            let place = order.iter().rposition(|&write| write == w).expect("w is a write to the location");
            order.insert(place + 1, event);
        }
        event
    }

    /// What is shown of an event: the value is that of the write which a read reads, and else its own.
    pub fn access(&self, event: usize) -> Access {
        let Event { location, action, source, .. } = self.events[event];
        let write = match action {
            Action::Read => source.expect("a read reads a write"),
            Action::Write(_) | Action::Update(_) => event,
        };
        Access { kind: action.kind(), location, value: self.written(write) }
    }

    /// How many events there are.
    pub fn size(&self) -> usize {
        self.events.len()
    }

    /// How many locations there are: L, and one more where the program has a fence.
    pub fn locations(&self) -> usize {
        self.orders.len()
    }

    /// Every event with what it is.
    pub fn events(&self) -> impl Iterator<Item = (usize, &Event)> {
        self.events.iter().enumerate()
    }

    /// The events for which the question holds.
    pub(crate) fn those(&self, question: impl Fn(&Event) -> bool) -> Events {
        let mut found = Events::none(self.size());
        self.events().filter(|(_, event)| question(event)).for_each(|(place, _)| found.insert(place));
        found
    }

    /// The modification order of a location.
    pub fn order(&self, location: usize) -> &[usize] {
        &self.orders[location]
    }

    /// "The newest write is the last in it."
    pub fn newest(&self, location: usize) -> usize {
        *self.orders[location].last().expect("a starting write is there")
    }

    /// The write that the event reads, where it reads one.
    pub fn source(&self, event: usize) -> Option<usize> {
        self.events[event].source
    }

    /// Whether the event is a starting write.
    pub fn is_start(&self, event: usize) -> bool {
        self.events[event].thread.is_none()
    }

    /// The value that a write or read-modify-write wrote.
    pub fn written(&self, write: usize) -> u8 {
        match self.events[write].action {
            Action::Write(value) | Action::Update(value) => value,
            Action::Read => unreachable!("a modification order has writes only"),
        }
    }

    /// The writes later than the one at this place of the location's modification order, the next one first.
    pub fn later(&self, location: usize, place: usize) -> &[usize] {
        &self.orders[location][place + 1..]
    }

    /// Whether a write that these come after is "directly followed by a read-modify-write".
    pub fn update_follows(&self, later: &[usize]) -> bool {
        later.first().is_some_and(|&next| matches!(self.events[next].action, Action::Update(_)))
    }
}

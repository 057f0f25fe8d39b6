//! A shortest cycle through the stale access: breadth-first search over the events.

use std::collections::{BTreeSet, VecDeque};

use crate::edge::{Edge, Relation};
use crate::execution::Execution;

impl Execution {
    /// A shortest cycle through the stale access, in program order, reads-from, modification order and from-read; the
    /// first edge is from the stale access and the last one back to it. There is none where some SC run builds the
    /// graph. The execution is one without a [`flaw`](crate::flaw).
    ///
    /// Of several it is the one that is easiest to read. At each event, the first one first, an edge of reads-from goes
    /// before others, as the run shows its value; then one of program order, which the text of the model shows;
    /// modification order and from-read, which must be thought out, come last. Of program order and reads-from the
    /// edge to the nearest event is taken, of the other two that to the newest write.
    pub fn cycle(&self) -> Option<Vec<Edge>> {
        let stale = self.stale();
        let mut search = Search::of(self);
        let mut due = VecDeque::from([stale]);
        while let Some(event) = due.pop_front() {
            for edge in search.edges_from(event) {
                if search.reach(edge) {
                    due.push_back(edge.to);
                }
            }
            if search.reached_by[stale].is_some() {
                break;
            }
        }
        search.way_back(stale)
    }
}

/// A search that meets each event once: edges that lead to what is reached already are not looked at again, as there
/// are many more of them than events.
struct Search<'a> {
    execution: &'a Execution,
    /// The events that read each write.
    readers: Vec<Vec<usize>>,
    /// The place of each write in its modification order.
    places: Vec<Option<usize>>,
    /// For each event that is reached the first edge to it.
    reached_by: Vec<Option<Edge>>,
    /// The events that are not reached yet, by thread.
    left_in_thread: BTreeSet<(Option<usize>, usize)>,
    /// The writes that are not reached yet: their location and their place in its modification order.
    left_in_order: BTreeSet<(usize, usize)>,
}

impl Search<'_> {
    fn of(execution: &Execution) -> Search<'_> {
        let size = execution.events.len();
        let (mut readers, mut places) = (vec![Vec::new(); size], vec![None; size]);
        let (mut left_in_thread, mut left_in_order) = (BTreeSet::new(), BTreeSet::new());
        for (event, what) in execution.events.iter().enumerate() {
            what.source.into_iter().for_each(|write: usize| readers[write].push(event));
            left_in_thread.insert((what.thread, event));
        }
        for (location, order) in execution.orders.iter().enumerate() {
            for (place, &write) in order.iter().enumerate() {
                places[write] = Some(place);
                left_in_order.insert((location, place));
            }
        }
        let reached_by = vec![None; size];
        Search { execution, readers, places, reached_by, left_in_thread, left_in_order }
    }

    /// The edges from an event to others that are not reached yet, the ones that are easier to read first.
    fn edges_from(&self, event: usize) -> Vec<Edge> {
        let to = |relation| move |to| Edge { from: event, to, relation };
        let source = self.execution.events[event].source;
        let mut edges: Vec<Edge> = self.readers[event].iter().copied().map(to(Relation::ReadsFrom)).collect();
        edges.extend(self.next_in_thread(event).into_iter().map(to(Relation::ProgramOrder)));
        edges.extend(self.later(event).map(to(Relation::ModificationOrder)));
        let overtaking = source.into_iter().flat_map(|write| self.later(write));
        edges.extend(overtaking.filter(|&it| it != event).map(to(Relation::FromRead)));
        edges
    }

    /// The events that program order puts after this one.
    fn next_in_thread(&self, event: usize) -> Vec<usize> {
        let thread = self.execution.events[event].thread;
        let event_of = |&(_, event): &(Option<usize>, usize)| event;
        if thread.is_some() {
            let later = (thread, event + 1)..=(thread, usize::MAX);
            return self.left_in_thread.range(later).map(event_of).collect();
        }
        let mut all: Vec<usize> = self.left_in_thread.range((Some(0), 0)..).map(event_of).collect();
        all.sort_unstable();
        all
    }

    /// The writes later than this one, the newest first; none if it is no write.
    fn later(&self, write: usize) -> impl Iterator<Item = usize> + '_ {
        let location = self.execution.events[write].location;
        let range =
            move |place: usize| self.left_in_order.range((location, place + 1)..=(location, usize::MAX));
        let places = self.places[write].into_iter().flat_map(range).rev();
        places.map(|&(location, place)| self.execution.orders[location][place])
    }

    /// Whether the edge is the first to where it leads.
    fn reach(&mut self, edge: Edge) -> bool {
        let is_first = self.reached_by[edge.to].is_none();
        if is_first {
            self.reached_by[edge.to] = Some(edge);
            let what = &self.execution.events[edge.to];
            self.left_in_thread.remove(&(what.thread, edge.to));
            self.places[edge.to].map(|place| self.left_in_order.remove(&(what.location, place)));
        }
        is_first
    }

    /// The edges that lead from the event back to it.
    fn way_back(&self, event: usize) -> Option<Vec<Edge>> {
        let mut edges = vec![self.reached_by[event]?];
        while edges.last()?.from != event {
            edges.push(self.reached_by[edges.last()?.from]?);
        }
        edges.reverse();
        Some(edges)
    }
}

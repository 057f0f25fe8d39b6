//! Which edges of a graph are drawn. The others follow from them.

use answer::Kind;
use explain::{Edge, Execution, Relation};

use crate::words::Words;

/// An edge that is drawn.
#[derive(Clone, Copy, Debug, PartialEq, Eq)]
pub struct Drawn {
    /// The edge.
    pub edge: Edge,
    /// Whether it is one of the cycle.
    pub in_cycle: bool,
    /// Whether it leads from an event to the next one of the thread.
    pub is_next: bool,
}

/// The edges to the next event of each relation, and all of the cycle.
pub fn drawn(words: &Words, cycle: &[Edge]) -> Vec<Drawn> {
    let execution = words.execution;
    let marked = |is_next| move |edge| Drawn { edge, in_cycle: cycle.contains(&edge), is_next };
    let mut all: Vec<Drawn> = next_in_thread(execution).into_iter().map(marked(true)).collect();
    let others = [reads(execution), changes(execution), overtaken(execution)].concat();
    let others = others.into_iter().filter(|&edge| !is_plain_order(words, edge));
    all.extend(others.map(marked(false)));
    let is_new = |edge: &Edge| all.iter().all(|drawn| drawn.edge != *edge);
    let beyond: Vec<Edge> = cycle.iter().copied().filter(is_new).collect();
    all.extend(beyond.into_iter().map(marked(false)));
    all
}

/// Whether the edge says no more of fences than that each reads the one before it. The first one has nothing to read that
/// is worth a box.
fn is_plain_order(words: &Words, edge: Edge) -> bool {
    let is_read = edge.relation == Relation::ReadsFrom;
    words.is_fence(edge.from) && !(is_read && words.is_drawn(edge.from))
}

/// Program order: from each event to the next one of its thread.
fn next_in_thread(execution: &Execution) -> Vec<Edge> {
    let events = &execution.events;
    let next = |from: usize| {
        let thread = events[from].thread?;
        let to = (from + 1..events.len()).find(|&to| events[to].thread == Some(thread))?;
        Some(Edge { from, to, relation: Relation::ProgramOrder })
    };
    (0..events.len()).filter_map(next).collect()
}

/// Reads-from.
fn reads(execution: &Execution) -> Vec<Edge> {
    let read = |(to, event): (usize, &explain::Event)| {
        Some(Edge { from: event.source?, to, relation: Relation::ReadsFrom })
    };
    execution.events.iter().enumerate().filter_map(read).collect()
}

/// Modification order: from each write to the next one.
fn changes(execution: &Execution) -> Vec<Edge> {
    let pairs = execution.orders.iter().flat_map(|order| order.windows(2));
    pairs.map(|pair| Edge { from: pair[0], to: pair[1], relation: Relation::ModificationOrder }).collect()
}

/// From-read: from each read to the write after the one that it read. Of a read-modify-write it is modification order
/// too.
fn overtaken(execution: &Execution) -> Vec<Edge> {
    let overtaken = |(from, event): (usize, &explain::Event)| {
        let source = event.source.filter(|_| event.kind == Kind::Read)?;
        let mut order = execution.orders[event.location].iter();
        order.find(|&&write| write == source)?;
        Some(Edge { from, to: *order.next()?, relation: Relation::FromRead })
    };
    execution.events.iter().enumerate().filter_map(overtaken).collect()
}

//! What must hold before an explanation is shown, straight from document 01, section "Graphs". It shares nothing but
//! the data with what finds a cycle.

use crate::edge::{Edge, Relation};
use crate::execution::{Event, Execution};

/// Whether the relation of the edge relates its two events.
pub fn holds(execution: &Execution, edge: Edge) -> bool {
    let [Some(from), Some(to)] = [edge.from, edge.to].map(|event| execution.events.get(event)) else {
        return false;
    };
    match edge.relation {
        Relation::ProgramOrder => in_thread_order(from, to),
        Relation::ReadsFrom => to.source == Some(edge.from),
        Relation::ModificationOrder => is_older(execution, from.location, edge.from, edge.to),
        // "a read to every write later than the one it read, itself excepted"
        Relation::FromRead => {
            let reads_older = |write| is_older(execution, from.location, write, edge.to);
            edge.from != edge.to && from.source.is_some_and(reads_older)
        }
    }
}

/// Whether the edges lead round: each starts where the one before it ends, the first where the last ends, and no event
/// comes twice.
pub fn is_cycle(edges: &[Edge]) -> bool {
    let follows = |(edge, next): (&Edge, &Edge)| edge.to == next.from;
    let comes_once = |event| edges.iter().filter(|edge| edge.from == event).count() == 1;
    !edges.is_empty()
        && edges.iter().zip(edges.iter().cycle().skip(1)).all(follows)
        && edges.iter().all(|edge| comes_once(edge.from))
}

/// "thread order (starting writes before all others)"
fn in_thread_order(from: &Event, to: &Event) -> bool {
    match (from.thread, to.thread) {
        (None, Some(_)) => true,
        (Some(thread), Some(other)) => thread == other && from.step < to.step,
        (_, None) => false,
    }
}

/// Whether both are writes to the location, and the first is older in its modification order.
fn is_older(execution: &Execution, location: usize, write: usize, other: usize) -> bool {
    let place = |event| execution.orders.get(location)?.iter().position(|&it| it == event);
    matches!((place(write), place(other)), (Some(older), Some(newer)) if older < newer)
}

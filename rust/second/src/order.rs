//! Happens-before and SC order of a graph, as closures: document 01, section "Graphs".

use crate::events::Relation;
use crate::graph::Graph;

/// "Happens-before is the closure of thread order (starting writes before all others) and reads-from."
pub fn happens_before(graph: &Graph) -> Relation {
    let mut edges = Relation::none(graph.size());
    for (b, event) in graph.events().filter(|(_, event)| event.thread.is_some()) {
        let earlier = |other: Option<usize>| other.is_none() || other == event.thread;
        for (a, _) in graph.events().take(b).filter(|(_, other)| earlier(other.thread)) {
            edges.put(a, b);
        }
        if let Some(write) = event.source {
            edges.put(write, b);
        }
    }
    edges.closed()
}

/// "SC order is the closure of happens-before, modification order and from-read."
pub fn sc_order(graph: &Graph, happens_before: &Relation) -> Relation {
    let mut edges = happens_before.clone();
    for (event, what) in graph.events() {
        let order = graph.order(what.location);
        if let Some(place) = order.iter().position(|&write| write == event) {
            for &later in graph.later(what.location, place) {
                edges.put(event, later);
            }
        }
        // "From-read relates a read to every write later than the one it read, itself excepted."
        if let Some(place) = order.iter().position(|&write| Some(write) == what.source) {
            for &later in graph.later(what.location, place).iter().filter(|&&later| later != event) {
                edges.put(event, later);
            }
        }
    }
    edges.closed()
}

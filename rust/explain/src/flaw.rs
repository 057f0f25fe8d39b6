//! Whether the data of an execution is a graph at all: document 01, section "Graphs".

use answer::Kind;

use crate::execution::{Event, Execution};

/// The first thing that keeps the data from being the graph of a run that ends with a stale access, if there is one.
pub fn flaw(execution: &Execution) -> Option<&'static str> {
    let failed = QUESTIONS.iter().find(|(holds, _)| !holds(execution));
    failed.map(|&(_, otherwise)| otherwise)
}

/// A question, and what is wrong where its answer is no.
type Question = (fn(&Execution) -> bool, &'static str);

/// Each asks only what the ones before it leave room for.
const QUESTIONS: [Question; 8] = [
    (|it| it.events.len() > it.orders.len(), "there is no event beside the starting writes"),
    (|it| each(it, is_start_or_step), "an event is neither a starting write nor that of a step"),
    (steps_are_in_order, "the steps are not in the order of their events"),
    (|it| each(it, has_parts_of_its_kind), "an event lacks what its kind has"),
    (|it| each(it, reads_a_write), "a value read is not that of an earlier write to the location"),
    (orders_are_total, "a modification order has other writes than its location"),
    (updates_are_next, "a read-modify-write is not directly after the write that it reads"),
    (ends_stale, "the last access does not go by an older write"),
];

fn each(execution: &Execution, question: fn(&Execution, usize) -> bool) -> bool {
    (0..execution.events.len()).all(|place| question(execution, place))
}

/// "one starting write of 0 per location, then each thread's reads, writes and read-modify-writes"
fn is_start_or_step(execution: &Execution, place: usize) -> bool {
    let event = &execution.events[place];
    match event.step.and_then(|step| execution.steps.get(step)) {
        _ if place < execution.orders.len() => {
            let start = Event {
                step: None,
                thread: None,
                kind: Kind::Write,
                location: place,
                read: None,
                written: Some(0),
                source: None,
            };
            *event == start
        }
        Some(step) => step.event == Some(place) && event.thread == Some(step.thread),
        None => false,
    }
}

/// The steps with an event have those after the starting writes, one after the other.
fn steps_are_in_order(execution: &Execution) -> bool {
    let events = execution.steps.iter().filter_map(|step| step.event);
    events.eq(execution.orders.len()..execution.events.len())
}

fn has_parts_of_its_kind(execution: &Execution, place: usize) -> bool {
    let Event { kind, location, read, written, source, .. } = execution.events[place];
    let parts = match kind {
        Kind::Read => [true, false],
        Kind::Write => [false, true],
        Kind::Update => [true, true],
    };
    location < execution.orders.len()
        && [read.is_some(), written.is_some()] == parts
        && source.is_some() == read.is_some()
}

/// A source is an earlier write to the same location, with the value read.
fn reads_a_write(execution: &Execution, place: usize) -> bool {
    let Event { location, read, source, .. } = execution.events[place];
    source.is_none_or(|source| {
        source < place
            && execution.events[source].location == location
            && execution.events[source].written == read
    })
}

/// "for each location a total modification order of its writes", the starting write first.
fn orders_are_total(execution: &Execution) -> bool {
    let is_write = |place: usize, location| {
        let event = &execution.events[place];
        event.location == location && event.written.is_some()
    };
    execution.orders.iter().enumerate().all(|(location, order)| {
        let mut sorted = order.clone();
        sorted.sort_unstable();
        let writes = (0..execution.events.len()).filter(|&place| is_write(place, location));
        order.first() == Some(&location) && writes.eq(sorted)
    })
}

/// Every write but the starting ones comes after another in its order.
fn updates_are_next(execution: &Execution) -> bool {
    let is_next = |pair: &[usize]| {
        let Event { kind, source, .. } = execution.events[pair[1]];
        kind != Kind::Update || source == Some(pair[0])
    };
    execution.orders.iter().all(|order| order.windows(2).all(is_next))
}

/// The write directly before this one in the modification order of the location.
fn predecessor(execution: &Execution, location: usize, write: usize) -> Option<usize> {
    execution.orders[location].windows(2).find(|pair| pair[1] == write).map(|pair| pair[0])
}

/// The last step is the stale access: it reads the picked write, comes directly after it, or both; and another write
/// was the newest.
fn ends_stale(execution: &Execution) -> bool {
    let Execution { steps, events, orders, picked, newest } = execution;
    let last = events.len() - 1;
    let Event { kind, location, source, .. } = events[last];
    let used = match kind {
        Kind::Read | Kind::Update => source,
        Kind::Write => predecessor(execution, location, last),
    };
    steps.last().is_some_and(|step| step.event == Some(last))
        && used == Some(*picked)
        && orders[location].iter().rfind(|&&write| write != last) == Some(newest)
        && picked != newest
}

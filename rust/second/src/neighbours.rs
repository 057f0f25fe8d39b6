//! What comes before given events in a long graph, without the closures of `order`: a search backward, along edges
//! between neighbours that have the same closures.

use crate::events::Events;
use crate::graph::Graph;

/// A graph with the neighbours of each event.
pub struct Neighbours<'a> {
    graph: &'a Graph,
    /// The event of the same thread that is directly before it.
    in_thread: Vec<Option<usize>>,
    /// The write that is directly before it in modification order.
    in_order: Vec<Option<usize>>,
    /// The events that read it.
    readers: Vec<Vec<usize>>,
}

impl Neighbours<'_> {
    pub fn of(graph: &Graph) -> Neighbours<'_> {
        let (mut in_thread, mut in_order) = (vec![None; graph.size()], vec![None; graph.size()]);
        let mut readers = vec![Vec::new(); graph.size()];
        let mut last = Vec::new();
        for (place, event) in graph.events() {
            if let Some(thread) = event.thread {
                last.resize(last.len().max(thread + 1), None);
                in_thread[place] = last[thread].replace(place);
            }
            if let Some(write) = event.source {
                readers[write].push(place);
            }
        }
        for location in 0..graph.locations() {
            for pair in graph.order(location).windows(2) {
                in_order[pair[1]] = Some(pair[0]);
            }
        }
        Neighbours { graph, in_thread, in_order, readers }
    }

    /// The events that happen before some event of the set.
    pub fn happening_before(&self, events: &Events) -> Events {
        self.reached(events, |event, due| self.put_happening_before(event, due))
    }

    /// The events that come before some event of the set in SC order.
    pub fn before_in_sc_order(&self, events: &Events) -> Events {
        self.reached(events, |event, due| {
            self.put_happening_before(event, due);
            // A read of an older write than the one before it has a from-read edge to that one too.
            if let Some(write) = self.in_order[event] {
                due.push(write);
                due.extend(self.readers[write].iter().filter(|&&reader| reader != event));
            }
        })
    }

    /// The neighbours before an event by thread order, "starting writes before all others", and by reads-from.
    fn put_happening_before(&self, event: usize, due: &mut Vec<usize>) {
        match self.in_thread[event] {
            Some(before) => due.push(before),
            None if self.graph.is_start(event) => {}
            None => due.extend(0..self.graph.locations()),
        }
        due.extend(self.graph.source(event));
    }

    /// The events that are reached from the set by one step back or more.
    fn reached(&self, events: &Events, put_neighbours: impl Fn(usize, &mut Vec<usize>)) -> Events {
        let mut found = Events::none(self.graph.size());
        let mut due = Vec::new();
        for event in (0..self.graph.size()).filter(|&event| events.contains(event)) {
            put_neighbours(event, &mut due);
        }
        while let Some(event) = due.pop() {
            if !found.contains(event) {
                found.insert(event);
                put_neighbours(event, &mut due);
            }
        }
        found
    }
}

#[cfg(test)]
mod tests {
    use random::{Numbers, Shape};

    use super::{Events, Graph, Neighbours};
    use crate::order::{happens_before, sc_order};
    use crate::State;

    /// A state after random release/acquire steps, which leave graphs of all kinds, also with cycles in SC order.
    fn state(numbers: &mut Numbers) -> State {
        let shapes = [Shape::litmus(), Shape::winding(), Shape::racing(), Shape::looping()];
        let shape = &shapes[numbers.below(shapes.len())];
        let program = random::program(numbers, shape);
        let mut state = State::start(&program);
        for _ in 0..60 {
            let thread = numbers.below(program.threads.len());
            let choices = state.ra_choices(&program, thread);
            if choices.is_empty() {
                state.take_sc_step(&program, thread);
            } else {
                let w = numbers.pick(&choices);
                state = state.ra_step(&program, thread, w).expect("a choice");
            }
        }
        state
    }

    fn members(graph: &Graph, events: &Events) -> Vec<usize> {
        (0..graph.size()).filter(|&event| events.contains(event)).collect()
    }

    #[test]
    fn a_search_finds_what_the_closures_have() {
        let mut numbers = Numbers::new(35);
        let mut cycles = 0;
        for _ in 0..1_000 {
            let state = state(&mut numbers);
            let graph = state.graph();
            let neighbours = Neighbours::of(graph);
            let happens_before = happens_before(graph);
            let sc_order = sc_order(graph, &happens_before);
            let holds = |events: &Events| {
                let [found, expected] = [neighbours.happening_before(events), happens_before.before(events)];
                assert_eq!(members(graph, &found), members(graph, &expected));
                let [found, expected] = [neighbours.before_in_sc_order(events), sc_order.before(events)];
                assert_eq!(members(graph, &found), members(graph, &expected));
                found
            };
            for (thread, _) in state.threads.iter().enumerate() {
                holds(&state.history.events_of(thread));
            }
            for event in 0..graph.size() {
                let mut alone = Events::none(graph.size());
                alone.insert(event);
                cycles += usize::from(holds(&alone).contains(event));
            }
        }
        assert!(cycles > 400, "{cycles}");
    }
}

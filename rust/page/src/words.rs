//! What is said of events and edges, in the picture, in the table and for graphviz.

use answer::Kind;
use explain::{Edge, Event, Execution, Relation};
use models::{Source, Statement};

use crate::relations::{look, Look, FENCE_ORDER};

/// A graph with the names and the lines of its model.
#[derive(Clone, Copy)]
pub struct Words<'a> {
    pub source: &'a Source,
    pub execution: &'a Execution,
}

impl<'a> Words<'a> {
    fn event(&self, event: usize) -> &'a Event {
        &self.execution.events[event]
    }

    /// Whether it is the stale access, the last event.
    pub fn is_stale(&self, event: usize) -> bool {
        event == self.execution.stale()
    }

    /// Whether it is a fence, or the starting write of their location.
    pub fn is_fence(&self, event: usize) -> bool {
        self.source.is_fence(self.event(event).location)
    }

    /// Whether it has a box: all but the starting write of the fences, which no text shows and no cycle has in it.
    pub fn is_drawn(&self, event: usize) -> bool {
        self.event(event).step.is_some() || !self.is_fence(event)
    }

    /// The line of a step as it is written; a step is a place in the list of them.
    pub fn statement(&self, step: usize) -> &'a Statement {
        let taken = &self.execution.steps[step];
        &self.source.statements[taken.thread][taken.line]
    }

    /// `R x = 0`, `W x = 1`, `M x: 0 → 1`, `fence`
    pub fn access(&self, event: usize) -> String {
        let Event { kind, location, read, written, .. } = *self.event(event);
        let name = self.source.name(location).expect("a run has no other locations than its model");
        if self.is_fence(event) {
            return name.into();
        }
        let [read, written] = [read, written].map(Option::unwrap_or_default);
        match kind {
            Kind::Read => format!("R {name} = {read}"),
            Kind::Write => format!("W {name} = {written}"),
            Kind::Update => format!("M {name}: {read} → {written}"),
        }
    }

    /// Where an event comes from: `step 3, line 12`. Steps and lines count from 1, as in the table and in the text.
    pub fn origin(&self, event: usize) -> String {
        match self.event(event).step {
            None => "starting write".into(),
            Some(step) => format!("step {}, line {}", step + 1, self.statement(step).line),
        }
    }

    /// All that the picture shows of an event, in words.
    pub fn of_event(&self, event: usize) -> String {
        let access = self.access(event);
        let (Some(step), Some(thread)) = (self.event(event).step, self.event(event).thread) else {
            return format!("Starting write {access}");
        };
        let Statement { line, text } = self.statement(step);
        let words = format!("Step {} of thread {}, line {line} ({text}): {access}", step + 1, thread + 1);
        if !self.is_stale(event) {
            return words;
        }
        let newest = self.named(self.execution.newest);
        format!("{words}. This is the stale access: it goes by an older write than {newest}, the newest.")
    }

    /// An event by its access and its step.
    fn named(&self, event: usize) -> String {
        let access = self.access(event);
        let stale = if self.is_stale(event) { ", stale" } else { "" };
        match (self.event(event).step, self.event(event).thread) {
            (Some(step), Some(thread)) => {
                format!("{access} (step {}, thread {}{stale})", step + 1, thread + 1)
            }
            _ => format!("{access} (starting write)"),
        }
    }

    /// How an edge is shown.
    pub fn look(&self, Edge { from, relation, .. }: Edge) -> &'static Look {
        if relation != Relation::ProgramOrder && self.is_fence(from) {
            &FENCE_ORDER
        } else {
            look(relation)
        }
    }

    /// An edge in words.
    pub fn of_edge(&self, edge: Edge, in_cycle: bool) -> String {
        let [from, to] = [edge.from, edge.to].map(|event| self.named(event));
        let cycle = if in_cycle { ", in the cycle" } else { "" };
        format!("{}{cycle}: from {from} to {to}", self.look(edge).name)
    }
}

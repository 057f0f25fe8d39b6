//! Accesses, writes and relations in words, with the names and the lines of the model.

use answer::Kind;

use crate::edge::{Edge, Relation};
use crate::execution::Taken;
use crate::explanation::Explanation;
use crate::table::KEPT;

impl Explanation {
    /// The line of the text, from 1, of a line of a thread.
    pub(crate) fn text_line(&self, thread: usize, line: usize) -> usize {
        self.source.statements[thread][line].line
    }

    /// A line of a thread as it is written, with single blanks.
    pub(crate) fn statement(&self, thread: usize, line: usize) -> String {
        let words: Vec<&str> = self.source.statements[thread][line].text.split_whitespace().collect();
        words.join(" ")
    }

    /// The name of a location, that of the fences included.
    pub(crate) fn name(&self, location: usize) -> &str {
        self.source.name(location).expect("a run has no other locations than its model")
    }

    /// The name of the location of an event.
    pub(crate) fn location(&self, event: usize) -> &str {
        self.name(self.execution.events[event].location)
    }

    /// Whether an event is a fence.
    pub(crate) fn is_fence(&self, event: usize) -> bool {
        self.source.is_fence(self.execution.events[event].location)
    }

    /// What an access does: `writes x = 1`, `reads x = 1`, or `x: 1 -> 2` for a read-modify-write. The values of a fence
    /// are always 0, and left out.
    pub(crate) fn access(&self, event: usize) -> String {
        if self.is_fence(event) {
            return "a fence".into();
        }
        let (name, what) = (self.location(event), &self.execution.events[event]);
        let value = |value: Option<u8>| value.map_or_else(String::new, |value| value.to_string());
        let (read, written) = (value(what.read), value(what.written));
        match what.kind {
            Kind::Read => format!("reads {name} = {read}"),
            Kind::Write => format!("writes {name} = {written}"),
            Kind::Update => format!("{name}: {read} -> {written}"),
        }
    }

    /// A write with its value: `x = 1 of step 3 (thread 2, line 7)` or `x = 0, the starting value`.
    pub(crate) fn write(&self, event: usize) -> String {
        let value = self.execution.events[event].written.unwrap_or_default();
        let write = format!("{} = {value}", self.location(event)).replace(' ', KEPT);
        match self.execution.step_of(event) {
            None => format!("{write}, the starting value"),
            Some(_) => format!("{write} of step {}", self.place(event)),
        }
    }

    /// The step that made an event: `3 (thread 2, line 7)`.
    pub(crate) fn place(&self, event: usize) -> String {
        let parts = self.thread_and_line(event).into_iter().map(|part| part.replace(' ', KEPT));
        format!("{} ({})", self.step(event), parts.collect::<Vec<_>>().join(", "))
    }

    /// `thread 2` and `line 7`; nothing for a starting write.
    pub(crate) fn thread_and_line(&self, event: usize) -> Vec<String> {
        let step = self.execution.step_of(event).into_iter();
        let parts = |step: &Taken| {
            let line = self.text_line(step.thread, step.line);
            [format!("thread {}", step.thread + 1), format!("line {line}")]
        };
        step.flat_map(parts).collect()
    }

    /// The number of the step that made the event, from 1; 0 for a starting write.
    pub(crate) fn step(&self, event: usize) -> usize {
        self.execution.events[event].step.map_or(0, |step| step + 1)
    }
}

impl Explanation {
    /// What the event that comes before is to the one after it. Of fences each reads the one before it, so that all
    /// their relations are one order.
    pub(crate) fn relation(&self, edge: Edge) -> &'static str {
        match edge.relation {
            Relation::ProgramOrder => edge.relation.words(),
            _ if self.is_fence(edge.from) => "fence order",
            _ => edge.relation.words(),
        }
    }
}

impl Relation {
    /// What the event that comes before is to the one after it.
    fn words(self) -> &'static str {
        match self {
            Relation::ProgramOrder => "program order",
            Relation::ReadsFrom => "read by",
            Relation::ModificationOrder => "written before",
            Relation::FromRead => "read older than",
        }
    }
}

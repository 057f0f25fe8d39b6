//! An explanation in words, for a terminal.

use answer::Kind;

use crate::edge::Edge;
use crate::execution::Taken;
use crate::explanation::Explanation;
use crate::table::{table, wrapped};

impl Explanation {
    /// The explanation in words; the steps of lines that make no access only where `verbose`. It ends with a newline.
    pub fn words(&self, verbose: bool) -> String {
        let parts = [self.run(verbose), self.stale_access(), self.way_round(), self.what_would_help()];
        parts.join("\n")
    }

    /// The run step by step.
    fn run(&self, verbose: bool) -> String {
        let steps = &self.execution.steps;
        let is_shown = |step: &Taken| verbose || step.event.is_some();
        let shown = || steps.iter().enumerate().filter(|(_, step)| is_shown(step));
        let is_marked = shown().any(|(_, step)| !self.is_on_cycle(step));
        let mut rows =
            vec![["", "step", "thread", "line", "statement", "what it does"].map(String::from).to_vec()];
        rows.extend(shown().map(|(place, step)| self.step_row(place, step, is_marked)));
        let notes = [
            (is_marked, "* marks the cycle"),
            (shown().count() < steps.len(), "-v shows the lines without access too"),
            (self.is_disassembly, "line numbers are those of the disassembly"),
        ];
        let notes: Vec<&str> = notes.iter().filter(|(holds, _)| *holds).map(|&(_, note)| note).collect();
        let notes = if notes.is_empty() { String::new() } else { format!(" ({})", notes.join("; ")) };
        wrapped("", &format!("The run{notes}:")) + &table("", &rows)
    }

    fn step_row(&self, place: usize, step: &Taken, is_marked: bool) -> Vec<String> {
        let mark = if is_marked && self.is_on_cycle(step) { "*" } else { "" };
        vec![
            mark.into(),
            (place + 1).to_string(),
            (step.thread + 1).to_string(),
            self.text_line(step.thread, step.line).to_string(),
            self.statement(step.thread, step.line),
            step.event.map_or_else(String::new, |event| self.effect(event)),
        ]
    }

    /// What an access does, and whose value it reads; of a fence the one that it comes after.
    fn effect(&self, event: usize) -> String {
        let (access, what) = (self.access(event), &self.execution.events[event]);
        match (what.kind, what.source.map(|write| self.step(write))) {
            (_, None) => access,
            (_, Some(0)) if self.is_fence(event) => format!("{access}, the first"),
            (_, Some(step)) if self.is_fence(event) => format!("{access}, after that of step {step}"),
            (Kind::Update, Some(0)) => format!("{access} (from the starting value)"),
            (Kind::Update, Some(step)) => format!("{access} (from step {step})"),
            (_, Some(0)) => format!("{access} (starting value)"),
            (_, Some(step)) => format!("{access} of step {step}"),
        }
    }

    fn is_on_cycle(&self, step: &Taken) -> bool {
        self.cycle.iter().any(|edge| Some(edge.from) == step.event)
    }

    /// The access that ends the run, the write that it may use, and the newest.
    fn stale_access(&self) -> String {
        let stale = self.execution.stale();
        let (picked, newest) = (self.write(self.execution.picked), self.write(self.execution.newest));
        let name = self.location(stale);
        let may = match self.execution.events[stale].kind {
            Kind::Read => format!("read {picked}"),
            Kind::Write => format!("write {name} directly after {picked}"),
            Kind::Update => format!("read {picked}, and write directly after it"),
        };
        let place = self.place(stale);
        let words = format!(
            "Step {place} is not SC: release/acquire lets it {may}, although the newest write is {newest}."
        );
        wrapped("", &words)
    }

    /// The cycle, edge by edge.
    fn way_round(&self) -> String {
        let rows: Vec<Vec<String>> = self.cycle.iter().map(|&edge| self.edge_row(edge)).collect();
        String::from("No SC run can do this, as each of these would have to come before the next:\n")
            + &table("  ", &rows)
    }

    fn edge_row(&self, edge: Edge) -> Vec<String> {
        let Edge { from, to, .. } = edge;
        let before = [vec![self.step(from).to_string()], self.thread_and_line(from), vec![self.access(from)]];
        let after = [self.relation(edge).into(), self.step(to).to_string(), self.access(to)];
        before.concat().into_iter().chain(after).collect()
    }
}

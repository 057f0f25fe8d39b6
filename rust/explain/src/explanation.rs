//! An explanation: all that is said of a report NR.

use std::error::Error;
use std::fmt::{self, Display, Formatter};

use answer::{Report, Step};
use models::Source;
use program::Program;

use crate::check::{holds, is_cycle};
use crate::edge::Edge;
use crate::execution::Execution;
use crate::flaw::flaw;
use crate::help::Help;
use crate::trial::Checked;

/// Why a model is not robust, and what would help.
#[derive(Clone, Debug, PartialEq, Eq)]
pub struct Explanation {
    pub(crate) source: Source,
    pub(crate) is_disassembly: bool,
    pub(crate) execution: Execution,
    pub(crate) cycle: Vec<Edge>,
    pub(crate) help: Help,
}

/// Why there is no explanation. Of the report of a checker that keeps to document 01 there always is one.
#[derive(Clone, Copy, Debug, PartialEq, Eq)]
pub enum Unexplained {
    /// The names and statements of the text are not those of the program.
    AnotherText,
    /// The report is not NR, or its steps or what it names are not those of the program.
    AnotherReport,
    /// The run did not leave a graph: this is wrong with it.
    NoGraph(&'static str),
    /// No cycle was found.
    NoCycle,
    /// What was found is no cycle through the stale access.
    NotClosed,
    /// This edge of the cycle does not hold.
    NoEdge(Edge),
}

impl Explanation {
    /// The explanation of a report NR and its steps on a model. The checker is asked about changes of the model, no
    /// more than [`MOST_CHECKS`](crate::MOST_CHECKS) times, and less often after a long run.
    ///
    /// Graph and cycle are checked by the definitions before anything is said of them.
    pub fn of(
        source: &Source,
        report: &Report,
        steps: &[Step],
        check: &mut dyn FnMut(&Program) -> Checked,
    ) -> Result<Explanation, Unexplained> {
        if !has_its_text(source) {
            return Err(Unexplained::AnotherText);
        }
        let execution = Execution::of(&source.program, report, steps).ok_or(Unexplained::AnotherReport)?;
        if let Some(flaw) = flaw(&execution) {
            return Err(Unexplained::NoGraph(flaw));
        }
        let cycle = execution.cycle().ok_or(Unexplained::NoCycle)?;
        verify(&execution, &cycle)?;
        let help = Help::of(source, &execution, &cycle, check);
        Ok(Explanation { source: source.clone(), is_disassembly: false, execution, cycle, help })
    }

    /// The same, of a model that came as bytes: it says that its lines are those of the disassembly.
    pub fn of_disassembly(self) -> Explanation {
        Explanation { is_disassembly: true, ..self }
    }

    /// The graph of the run.
    pub fn execution(&self) -> &Execution {
        &self.execution
    }

    /// The cycle, from the stale access back to it.
    pub fn cycle(&self) -> &[Edge] {
        &self.cycle
    }

    /// What would help.
    pub fn help(&self) -> &Help {
        &self.help
    }
}

/// Whether the text has a name for each location and a statement for each line of the program.
fn has_its_text(source: &Source) -> bool {
    let Source { program, locations, statements, .. } = source;
    locations.len() == usize::from(program.locations)
        && statements.iter().map(Vec::len).eq(program.threads.iter().map(Vec::len))
}

/// Holds the cycle to the definitions.
fn verify(execution: &Execution, cycle: &[Edge]) -> Result<(), Unexplained> {
    if !is_cycle(cycle) || cycle[0].from != execution.stale() {
        return Err(Unexplained::NotClosed);
    }
    match cycle.iter().find(|&&edge| !holds(execution, edge)) {
        Some(&edge) => Err(Unexplained::NoEdge(edge)),
        None => Ok(()),
    }
}

impl Display for Unexplained {
    fn fmt(&self, to: &mut Formatter) -> fmt::Result {
        match self {
            Unexplained::AnotherText => to.write_str("the text of the model is not that of its program"),
            Unexplained::AnotherReport => to.write_str("the report is not NR, or not on this model"),
            Unexplained::NoGraph(flaw) => write!(to, "the run leaves no execution graph: {flaw}"),
            Unexplained::NoCycle => to.write_str("no cycle was found in the graph of the run"),
            Unexplained::NotClosed => to.write_str("what was found is no cycle through the stale access"),
            Unexplained::NoEdge(Edge { from, to: end, relation }) => {
                write!(to, "{relation:?} does not relate event {from} to event {end}")
            }
        }
    }
}

impl Error for Unexplained {}

#[cfg(test)]
mod tests {
    use answer::{Access, Kind, Report, Step};
    use models::Source;

    use super::{verify, Edge, Execution, Unexplained};
    use crate::edge::Relation;

    /// Store buffering.
    fn execution() -> Execution {
        let text = b"values 2\nlocations x y\nthread\nx := 1\nr0 := y\nthread\ny := 1\nr0 := x\n";
        let step =
            |thread, kind, location, value| Step { thread, access: Some(Access { kind, location, value }) };
        let steps = [step(1, Kind::Write, 0, 1), step(1, Kind::Read, 1, 0), step(2, Kind::Write, 1, 1)];
        let report =
            Report::NotRobust { count: 7, steps: 3, thread: 2, kind: Kind::Read, location: 0, value: 0 };
        Execution::of(&Source::of_text(text).unwrap().program, &report, &steps).unwrap()
    }

    #[test]
    fn a_cycle_that_does_not_hold_is_no_explanation() {
        let execution = execution();
        let cycle = execution.cycle().unwrap();
        assert_eq!(verify(&execution, &cycle), Ok(()));
        for place in 0..cycle.len() {
            let mut damaged = cycle.clone();
            damaged[place].relation = Relation::ReadsFrom;
            assert_eq!(verify(&execution, &damaged), Err(Unexplained::NoEdge(damaged[place])));
        }
    }

    #[test]
    fn what_is_no_cycle_through_the_stale_access_is_no_explanation() {
        let execution = execution();
        let cycle = execution.cycle().unwrap();
        let rotated: Vec<Edge> = cycle.iter().cycle().skip(1).take(cycle.len()).copied().collect();
        for other in [&[][..], &cycle[1..], &cycle[..1], &rotated] {
            assert_eq!(verify(&execution, other), Err(Unexplained::NotClosed), "{other:?}");
        }
    }

    #[test]
    fn each_reason_has_its_words() {
        let edge = Edge { from: 1, to: 2, relation: Relation::FromRead };
        for (why, words) in [
            (Unexplained::AnotherText, "the text of the model is not that of its program"),
            (Unexplained::AnotherReport, "the report is not NR, or not on this model"),
            (Unexplained::NoGraph("why"), "the run leaves no execution graph: why"),
            (Unexplained::NoCycle, "no cycle was found in the graph of the run"),
            (Unexplained::NotClosed, "what was found is no cycle through the stale access"),
            (Unexplained::NoEdge(edge), "FromRead does not relate event 1 to event 2"),
        ] {
            assert_eq!(why.to_string(), words);
        }
    }
}

//! What would help: changes that break the cycle, and what the checker says of the model with them.

use models::Source;
use program::{Line, Program};

use crate::change::{counterpart, Change};
use crate::edge::{Edge, Relation};
use crate::execution::{Execution, Taken};
use crate::fences::enough;
use crate::trial::{Checked, Trial, Trials, Verdict};

/// What would break the cycle.
#[derive(Clone, Debug, PartialEq, Eq)]
pub struct Help {
    /// Each fence of the cycle alone, and all together.
    pub fences: Vec<Trial>,
    /// Each read-modify-write in place of an access of the cycle alone, and all that the language has together.
    pub updates: Vec<Trial>,
    /// A small set of fences that makes the model robust; where none was found, the last one that was considered.
    pub enough: Trial,
    /// How many changed models the checker was asked about.
    pub checks: usize,
}

/// Changes of one line of a text, one for each thread that has it.
pub(crate) type Group = Vec<Change>;

impl Help {
    /// Tries what would break the cycle.
    pub(crate) fn of(
        source: &Source,
        execution: &Execution,
        cycle: &[Edge],
        check: &mut dyn FnMut(&Program) -> Checked,
    ) -> Help {
        let mut trials = Trials::new(&source.program, execution.steps.len(), check);
        let groups = fences(source, execution, cycle, |step| Some(step.line));
        let fences = each_and_all(&mut trials, &groups);
        let enough = enough(source, &mut trials, groups);
        let updates = tried_updates(&mut trials, updates(source, execution, cycle));
        Help { fences, updates, enough, checks: trials.checks() }
    }
}

/// Each change alone, and last all together where there are several.
fn each_and_all(trials: &mut Trials, groups: &[Group]) -> Vec<Trial> {
    let mut tried: Vec<Trial> = groups.iter().map(|group| trials.trial(group)).collect();
    if groups.len() > 1 {
        tried.push(trials.trial(&groups.concat()));
    }
    tried
}

/// The changes that the language has lines for, tried, and after them the others.
fn tried_updates(trials: &mut Trials, updates: Vec<(Group, bool)>) -> Vec<Trial> {
    let of = |with_line| {
        let chosen = updates.iter().filter(move |(_, has_line)| *has_line == with_line);
        chosen.map(|(group, _)| group.clone())
    };
    let mut tried = each_and_all(trials, &of(true).collect::<Vec<Group>>());
    tried.extend(of(false).map(|changes| Trial { changes, verdict: Verdict::NoLine }));
    tried
}

/// A fence for each edge of program order on the cycle without one, by the line that a step was in the model; none where
/// a step is no line of it.
pub(crate) fn fences(
    source: &Source,
    execution: &Execution,
    cycle: &[Edge],
    line: impl Fn(&Taken) -> Option<usize>,
) -> Vec<Group> {
    let fence = |edge: &Edge| {
        let [from, to] = [edge.from, edge.to].map(|event| execution.step_of(event));
        let (thread, after, before) = (from?.thread, line(from?)?, line(to?)?);
        let fences = sharing(source, thread, after).map(|thread| Change::Fence { thread, after, before });
        Some(fences.collect())
    };
    let in_program_order = cycle.iter().filter(|edge| edge.relation == Relation::ProgramOrder);
    let bare = in_program_order.filter(|&&edge| !has_fence(source, execution, edge));
    in_order(bare.filter_map(fence).collect())
}

/// Whether one of the two accesses is a fence, or a fence comes between them: another would be one too many. There is
/// always an edge without, as fences are in one order, and no cycle goes round in that.
fn has_fence(source: &Source, execution: &Execution, edge: Edge) -> bool {
    let of_fences = usize::from(source.program.locations);
    let mut events = execution.events[edge.from..=edge.to].iter();
    events.any(|event| event.thread == execution.events[edge.from].thread && event.location == of_fences)
}

/// The accesses of the cycle that are no read-modify-writes, and whether the language has one in place of each.
fn updates(source: &Source, execution: &Execution, cycle: &[Edge]) -> Vec<(Group, bool)> {
    let steps = cycle.iter().filter_map(|edge| execution.step_of(edge.from));
    let update = |&Taken { thread, line, .. }: &Taken| {
        let written = &source.program.threads[thread][line];
        let is_plain = matches!(written, Line::Read { .. } | Line::Wait { .. } | Line::Write { .. });
        let updates = sharing(source, thread, line).map(|thread| Change::Update { thread, line });
        is_plain.then(|| (updates.collect(), counterpart(written).is_some()))
    };
    in_order(steps.filter_map(update).collect())
}

/// The threads that have the same line of the text there: the thread, and those that it was written together with.
fn sharing(source: &Source, thread: usize, line: usize) -> impl Iterator<Item = usize> + '_ {
    let place = move |thread: usize| source.statements[thread].get(line).map(|statement| statement.line);
    (0..source.statements.len()).filter(move |&other| place(other) == place(thread))
}

/// By threads and lines, each once.
fn in_order<T: Ord>(mut changes: Vec<T>) -> Vec<T> {
    changes.sort_unstable();
    changes.dedup();
    changes
}

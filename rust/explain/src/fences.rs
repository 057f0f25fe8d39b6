//! A small set of fences that makes a program robust.

use models::Source;

use crate::change::{Change, Changed};
use crate::execution::Execution;
use crate::help::{fences, Group};
use crate::trial::{Checked, Outcome, Trial, Trials, Verdict};

/// How often the fences of one more cycle are added.
const ROUNDS: usize = 8;

/// One of the fences, where it is enough alone; else more are added to all of them, as long as the program is not
/// robust, and then left out one by one.
pub(crate) fn enough(source: &Source, trials: &mut Trials, set: Vec<Group>) -> Trial {
    let mut alone = set.iter().map(|fence| trials.trial(fence));
    let found = alone.find(|trial| trial.verdict == Verdict::Robust);
    found.unwrap_or_else(|| grown(source, trials, set))
}

fn grown(source: &Source, trials: &mut Trials, mut set: Vec<Group>) -> Trial {
    for _ in 0..ROUNDS {
        let outcome = trials.outcome(&set.concat());
        let more = match &outcome {
            Outcome::Checked(_, Checked::Robust) => return shrunk(trials, set),
            Outcome::Checked(changed, checked) => next_fences(source, changed, checked, &set),
            Outcome::Not(_) => Vec::new(),
        };
        if more.is_empty() {
            return Trial { changes: set.concat(), verdict: outcome.verdict() };
        }
        set.extend(more);
        set.sort_unstable();
    }
    trials.trial(&set.concat())
}

/// The fences of the cycle of a changed program that is not robust, but for those that it has.
fn next_fences(source: &Source, changed: &Changed, checked: &Checked, set: &[Group]) -> Vec<Group> {
    let Checked::NotRobust { report, steps } = checked else {
        return Vec::new();
    };
    let Some(execution) = Execution::of(&changed.program, report, steps) else {
        return Vec::new();
    };
    let cycle = execution.cycle().unwrap_or_default();
    let mut found = fences(source, &execution, &cycle, |step| changed.lines[step.thread][step.line]);
    found.retain(|fence| !set.iter().any(|other| place(other) == place(fence)));
    found.dedup_by_key(|fence| place(fence));
    found
}

/// Where a fence stands: its first thread, and the line before it there.
fn place(fence: &Group) -> Option<(usize, usize)> {
    match fence.first()? {
        Change::Fence { thread, after, .. } => Some((*thread, *after)),
        Change::Update { .. } => None,
    }
}

/// The fences that are left when each is left out without which the program is robust all the same.
fn shrunk(trials: &mut Trials, mut set: Vec<Group>) -> Trial {
    for fence in set.clone() {
        let fewer: Vec<Group> = set.iter().filter(|&other| *other != fence).cloned().collect();
        if trials.outcome(&fewer.concat()).verdict() == Verdict::Robust {
            set = fewer;
        }
    }
    Trial { changes: set.concat(), verdict: Verdict::Robust }
}

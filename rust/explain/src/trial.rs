//! Changes that are tried: what the checker says of the changed program.

use answer::{Report, Step};
use program::Program;

use crate::change::{changed, Change, Changed};

/// What a checker says of a program.
#[derive(Clone, Debug, PartialEq, Eq)]
pub enum Checked {
    /// It is robust.
    Robust,
    /// It is not: the report NR and its steps.
    NotRobust {
        /// The report.
        report: Report,
        /// Its steps.
        steps: Vec<Step>,
    },
    /// It said neither: its table was full.
    Undecided,
}

/// Changes made together, and what is known of the program with them.
#[derive(Clone, Debug, PartialEq, Eq)]
pub struct Trial {
    /// The changes.
    pub changes: Vec<Change>,
    /// What is known.
    pub verdict: Verdict,
}

/// What is known of a changed program.
#[derive(Clone, Copy, Debug, PartialEq, Eq)]
pub enum Verdict {
    /// The checker says that it is robust.
    Robust,
    /// The checker says that it is not.
    NotRobust,
    /// The checker was asked and said neither: its table was full.
    Undecided,
    /// It was not tried: the limits of programs leave no room for the change.
    NoRoom,
    /// It was not tried: the language has no line for the change.
    NoLine,
    /// It was not tried: enough others were.
    Untried,
}

/// The most checks that are spent on one explanation; that of a long run gets fewer.
pub const MOST_CHECKS: usize = 40;

/// As few after the longest runs: enough for the changes of a short cycle.
const LEAST_CHECKS: usize = 8;

/// The steps that the checks of one explanation may take in all, if each takes those of the run.
const STEPS: usize = 2_000_000;

/// What became of a set of changes.
pub(crate) enum Outcome {
    /// What the checker said of the changed program.
    Checked(Changed, Checked),
    /// What is known without asking it.
    Not(Verdict),
}

impl Outcome {
    pub fn verdict(&self) -> Verdict {
        match self {
            Outcome::Checked(_, Checked::Robust) => Verdict::Robust,
            Outcome::Checked(_, Checked::NotRobust { .. }) => Verdict::NotRobust,
            Outcome::Checked(_, Checked::Undecided) => Verdict::Undecided,
            Outcome::Not(why) => *why,
        }
    }
}

/// A program that is not robust, and a checker that is not asked too often.
pub(crate) struct Trials<'a> {
    program: &'a Program,
    check: &'a mut dyn FnMut(&Program) -> Checked,
    /// How often it may be asked.
    most: usize,
    /// What was asked already.
    known: Vec<(Program, Checked)>,
}

impl<'a> Trials<'a> {
    /// Trials of changes of a program, after a run of so many steps.
    pub fn new(
        program: &'a Program,
        steps: usize,
        check: &'a mut dyn FnMut(&Program) -> Checked,
    ) -> Trials<'a> {
        let most = (STEPS / steps.max(1)).clamp(LEAST_CHECKS, MOST_CHECKS);
        Trials { program, check, most, known: Vec::new() }
    }

    /// How often the checker was asked.
    pub fn checks(&self) -> usize {
        self.known.len()
    }

    pub fn outcome(&mut self, changes: &[Change]) -> Outcome {
        if changes.is_empty() {
            return Outcome::Not(Verdict::NotRobust);
        }
        let Some(changed) = changed(self.program, changes) else {
            return Outcome::Not(Verdict::NoRoom);
        };
        if let Some((_, checked)) = self.known.iter().find(|(program, _)| *program == changed.program) {
            return Outcome::Checked(changed, checked.clone());
        }
        if self.checks() == self.most {
            return Outcome::Not(Verdict::Untried);
        }
        let checked = (self.check)(&changed.program);
        self.known.push((changed.program.clone(), checked.clone()));
        Outcome::Checked(changed, checked)
    }

    pub fn trial(&mut self, changes: &[Change]) -> Trial {
        Trial { changes: changes.to_vec(), verdict: self.outcome(changes).verdict() }
    }
}

#[cfg(test)]
mod tests {
    use program::{Line, Operand, Program};

    use super::{Change, Checked, Trials, Verdict, MOST_CHECKS};

    fn fence(after: usize) -> Change {
        Change::Fence { thread: 0, after, before: after + 1 }
    }

    /// A program of 63 lines.
    fn long() -> Program {
        let line = Line::Write { location: 0, a: Operand::Constant(1) };
        Program { threads: vec![vec![line; 63]], locations: 1, values: 2 }
    }

    /// How often a checker is asked after a run of so many steps.
    fn asked_after(steps: usize) -> usize {
        let program = long();
        let mut asked = 0;
        let mut check = |_: &Program| {
            asked += 1;
            Checked::Undecided
        };
        let mut trials = Trials::new(&program, steps, &mut check);
        let verdicts: Vec<Verdict> = (0..60).map(|after| trials.trial(&[fence(after)]).verdict).collect();
        let checks = trials.checks();
        assert_eq!(asked, checks);
        let expected = |place| if place < checks { Verdict::Undecided } else { Verdict::Untried };
        assert_eq!(verdicts, (0..60).map(expected).collect::<Vec<_>>());
        checks
    }

    #[test]
    fn the_checker_is_asked_no_more_often_than_that() {
        assert_eq!([0, 1, 700, 50_000].map(asked_after), [MOST_CHECKS; 4]);
    }

    #[test]
    fn after_a_long_run_it_is_asked_less_often() {
        assert_eq!([100_000, 200_000, 1_000_000, usize::MAX].map(asked_after), [20, 10, 8, 8]);
    }

    #[test]
    fn what_was_asked_is_not_asked_again() {
        let program = long();
        let mut answers = vec![Checked::Robust, Checked::Undecided];
        let mut check = |_: &Program| answers.pop().unwrap();
        let mut trials = Trials::new(&program, 3, &mut check);
        for _ in 0..3 {
            assert_eq!(trials.trial(&[fence(0)]).verdict, Verdict::Undecided);
            assert_eq!(trials.trial(&[fence(1), fence(1)]).verdict, Verdict::Robust);
            assert_eq!(trials.trial(&[fence(1)]).verdict, Verdict::Robust);
        }
        assert_eq!(trials.checks(), 2);
    }

    #[test]
    fn it_is_not_asked_where_the_answer_is_known() {
        let program = long();
        let mut check = |_: &Program| panic!("asked");
        let mut trials = Trials::new(&program, 3, &mut check);
        assert_eq!(trials.trial(&[]).verdict, Verdict::NotRobust);
        assert_eq!(trials.trial(&[fence(0), fence(1)]).verdict, Verdict::NoRoom);
        assert_eq!(trials.checks(), 0);
    }
}

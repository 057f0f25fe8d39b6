//! What would help, in words.

use program::limits::{LINES, LOCATIONS_BESIDE_A_FENCE};
use program::Line;

use crate::change::{fence_locations, Change};
use crate::explanation::Explanation;
use crate::table::{wrapped, KEPT};
use crate::trial::{Trial, Verdict};

/// The verdicts in the order in which they are shown, each with its word.
const VERDICTS: [(Verdict, &str); 6] = [
    (Verdict::Robust, "robust"),
    (Verdict::NotRobust, "not robust"),
    (Verdict::Undecided, "undecided"),
    (Verdict::NoRoom, "not tried"),
    (Verdict::NoLine, "not tried"),
    (Verdict::Untried, "not tried"),
];

impl Explanation {
    /// The changes, each with what the checker says of the model with it, and of equal verdicts the smallest first.
    pub(crate) fn what_would_help(&self) -> String {
        let mut trials = self.trials();
        trials.sort_by_key(|trial| self.places(trial).len());
        let mut text = wrapped("", &self.title());
        for (verdict, word) in VERDICTS {
            for trial in trials.iter().filter(|trial| trial.verdict == verdict) {
                text += &wrapped(&format!("  {word:10}  "), &(self.advice(trial) + &self.more(verdict)));
            }
        }
        text
    }

    /// What is said of a change with the verdict.
    fn more(&self, verdict: Verdict) -> String {
        match verdict {
            Verdict::Robust | Verdict::NotRobust => String::new(),
            Verdict::Undecided => ": the table of the quick check was too small".into(),
            Verdict::NoRoom => self.no_room(),
            Verdict::NoLine => ": the language has none".into(),
            Verdict::Untried => ": enough others were".into(),
        }
    }

    /// The limit that leaves no room for a fence: that of lines only where there is room for its location.
    fn no_room(&self) -> String {
        let most = LOCATIONS_BESIDE_A_FENCE.end();
        if self.source.program.locations > *most {
            format!(": a model with a fence has at most {most} locations")
        } else {
            format!(": a thread has at most {} lines", LINES.end())
        }
    }

    /// Who has fences of an older form learns that those which are tried are others.
    fn title(&self) -> String {
        let older = fence_locations(&self.source.program);
        let names: Vec<&str> = older.iter().map(|&location| self.name(location.into())).collect();
        let apart = match names[..] {
            [] => String::new(),
            _ => format!(
                " (a fence is the line 'fence'; those on {} are not ordered with it, and are best written so too)",
                names.join(", ")
            ),
        };
        format!("What would help, and what the checker says of the model with it{apart}:")
    }

    /// Those that the language has lines for, and last the others together.
    fn trials(&self) -> Vec<Trial> {
        let help = &self.help;
        let mut trials = help.fences.clone();
        if !trials.iter().any(|trial| trial.changes == help.enough.changes) {
            trials.push(help.enough.clone());
        }
        let (without_line, tried): (Vec<Trial>, Vec<Trial>) =
            help.updates.iter().cloned().partition(|trial| trial.verdict == Verdict::NoLine);
        trials.extend(tried);
        let changes: Vec<Change> = without_line.into_iter().flat_map(|trial| trial.changes).collect();
        if !changes.is_empty() {
            trials.push(Trial { changes, verdict: Verdict::NoLine });
        }
        trials
    }

    /// The changes of a trial, each line of the text once.
    fn places(&self, trial: &Trial) -> Vec<Change> {
        let mut places: Vec<Change> = Vec::new();
        for &change in &trial.changes {
            if !places.iter().any(|&other| self.line_of(other) == self.line_of(change)) {
                places.push(change);
            }
        }
        places
    }

    fn advice(&self, trial: &Trial) -> String {
        let places = self.places(trial);
        match places[..] {
            [Change::Fence { thread, after, before }] => {
                let [after, before] = [after, before].map(|line| self.line(thread, line));
                format!("a fence directly after {after}, before {before}")
            }
            [Change::Update { thread, line }] => {
                format!("{} in place of {}", self.update(thread, line), self.line(thread, line))
            }
            [Change::Fence { .. }, ..] => format!("fences directly after lines {}", self.lines(&places)),
            _ if trial.verdict == Verdict::NoLine => {
                format!("atomic exchanges in place of the writes in lines {}", self.lines(&places))
            }
            _ => format!("read-modify-writes in place of lines {}", self.lines(&places)),
        }
    }

    /// `line 7 (x := 1)`
    fn line(&self, thread: usize, line: usize) -> String {
        let text = self.statement(thread, line);
        format!("line {} ({})", self.text_line(thread, line), text.replace(' ', KEPT))
    }

    /// The read-modify-write that would stand in place of a line, with the value of a wait as it is written.
    fn update(&self, thread: usize, line: usize) -> String {
        let name = |location: u8| self.name(location.into());
        match self.source.program.threads[thread][line] {
            Line::Read { location, .. } => format!("FADD({},{KEPT}0)", name(location)),
            Line::Wait { location, .. } => {
                let text = self.statement(thread, line);
                let value = text.rsplit('=').next().unwrap_or_default().trim_matches([' ', ')']);
                format!("BCAS({}, {value} -> {value})", name(location)).replace(' ', KEPT)
            }
            _ => "an atomic exchange".into(),
        }
    }

    /// The line of the text that a change is made in.
    fn line_of(&self, change: Change) -> usize {
        match change {
            Change::Fence { thread, after: line, .. } | Change::Update { thread, line } => {
                self.text_line(thread, line)
            }
        }
    }

    /// `7, 8 and 10`
    fn lines(&self, changes: &[Change]) -> String {
        let lines: Vec<String> = changes.iter().map(|&change| self.line_of(change).to_string()).collect();
        match lines.split_last() {
            Some((last, [])) => last.clone(),
            Some((last, others)) => format!("{} and {last}", others.join(", ")),
            None => String::new(),
        }
    }
}

//! The verdict in words.

use answer::{Kind, Report};
use models::Source;

/// The report in a sentence, with the names of the model.
pub fn verdict(source: &Source, report: &Report) -> String {
    format!("{}: {}", head(report), reason(source, report))
}

/// The verdict in a word or two.
pub fn head(report: &Report) -> &'static str {
    match report {
        Report::Robust { .. } => "Robust",
        Report::NotRobust { .. } | Report::Short { .. } => "Not robust",
        Report::Full { .. } => "Undecided",
        Report::Refused { .. } => "No program",
        _ => "Not said to be robust",
    }
}

/// The rest of the sentence.
pub fn reason(source: &Source, report: &Report) -> String {
    match *report {
        Report::Robust { count } => format!(
            "every release/acquire run ends in thread states and a graph that some SC run reaches too. The \
             model has {}, all searched.",
            situations(count)
        ),
        Report::NotRobust { steps, thread, kind, location, value, .. } => {
            let name = source.name(location).unwrap_or("?");
            let these = if steps == 1 { "this step".into() } else { format!("these {steps} steps") };
            format!("after {these} thread {thread} may {}.", stale(kind, name, value))
        }
        Report::Short { wanted } => {
            format!("the trace is too short for the steps that show it, which need exactly {wanted} bytes.")
        }
        Report::Full { count } => format!(
            "the table is full. There is no witness in the first {}, and there are more.",
            if count == 1 { "situation".into() } else { situations(count) }
        ),
        Report::Refused { number } => format!("check {number} of the input failed first."),
        _ => format!("{report}."),
    }
}

fn situations(count: usize) -> String {
    let plural = if count == 1 { "" } else { "s" };
    format!("{count} situation{plural}")
}

/// What the stale access may do.
fn stale(kind: Kind, name: &str, value: u8) -> String {
    match kind {
        Kind::Read => format!("read the old value {value} of {name}"),
        Kind::Write => {
            format!("place its write of {name} directly after an older write of {value}, before the newest")
        }
        Kind::Update => format!("read the old value {value} of {name}, and write {name} directly after it"),
    }
}

#[cfg(test)]
mod tests {
    use super::{verdict, Kind, Report, Source};

    fn says(report: Report, words: &str) {
        let source = Source::of_text(b"values 2\nlocations flag turn\nthread").unwrap();
        assert_eq!(verdict(&source, &report), words);
    }

    #[test]
    fn each_stale_access_has_its_sentence() {
        let not_robust =
            |steps, kind| Report::NotRobust { count: 7, steps, thread: 2, kind, location: 1, value: 3 };
        says(
            not_robust(3, Kind::Read),
            "Not robust: after these 3 steps thread 2 may read the old value 3 of turn.",
        );
        says(
            not_robust(1, Kind::Write),
            "Not robust: after this step thread 2 may place its write of turn directly after an older \
             write of 3, before the newest.",
        );
        says(
            not_robust(2, Kind::Update),
            "Not robust: after these 2 steps thread 2 may read the old value 3 of turn, and write turn \
             directly after it.",
        );
    }

    #[test]
    fn each_other_report_has_its_sentence() {
        says(
            Report::Robust { count: 13 },
            "Robust: every release/acquire run ends in thread states and a graph that some SC run reaches \
             too. The model has 13 situations, all searched.",
        );
        says(
            Report::Full { count: 1 },
            "Undecided: the table is full. There is no witness in the first situation, and there are more.",
        );
        says(
            Report::Short { wanted: 12 },
            "Not robust: the trace is too short for the steps that show it, which need exactly 12 bytes.",
        );
        says(Report::Refused { number: 9 }, "No program: check 9 of the input failed first.");
    }
}

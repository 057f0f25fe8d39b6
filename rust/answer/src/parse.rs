//! From the text of the printing program back to the report.

use crate::kind::Kind;
use crate::report::Report;
use crate::step::{Access, Step};

/// The report that a text of the printing program is, with its steps; nothing where the text is not whole, or has
/// anything else in it.
///
/// A report [`Report::Short`] has no text of its own: the printing program never makes it.
pub fn report_in(text: &str) -> Option<(Report, Vec<Step>)> {
    let mut lines = text.strip_suffix('\n')?.split('\n');
    let report = report_of(lines.next()?)?;
    let steps: Vec<Step> = lines.map(step_of).collect::<Option<_>>()?;
    let expected = match report {
        Report::NotRobust { steps, .. } => steps,
        _ => 0,
    };
    (steps.len() == expected).then_some((report, steps))
}

/// The report of a first line.
fn report_of(line: &str) -> Option<Report> {
    let words: Vec<&str> = line.split(' ').collect();
    let report = match words[..] {
        ["RB", count] => Report::Robust { count: count.parse().ok()? },
        ["FU", count] => Report::Full { count: count.parse().ok()? },
        ["NO", number] => Report::refused(number.parse().ok()?)?,
        ["NR", count, steps, thread, kind, location, value] => Report::NotRobust {
            count: count.parse().ok()?,
            steps: steps.parse().ok()?,
            thread: thread.parse().ok()?,
            kind: kind_of(kind)?,
            location: location.parse().ok()?,
            value: value.parse().ok()?,
        },
        _ => return None,
    };
    // There is one way to write a number.
    (report.to_string() == line).then_some(report)
}

/// The step of an ST line.
fn step_of(line: &str) -> Option<Step> {
    let words: Vec<&str> = line.split(' ').collect();
    let ["ST", thread, kind, location, value] = words[..] else {
        return None;
    };
    let access = match kind_of(kind) {
        Some(kind) => Some(Access { kind, location: location.parse().ok()?, value: value.parse().ok()? }),
        None => None,
    };
    let step = Step { thread: thread.parse().ok()?, access };
    (step.to_string() == line).then_some(step)
}

/// The kind of a letter.
fn kind_of(letter: &str) -> Option<Kind> {
    Kind::ALL.into_iter().find(|kind| kind.to_string() == letter)
}

#[cfg(test)]
mod tests {
    use super::{report_in, Access, Kind, Report, Step};

    const SB: &str = "NR 7 3 2 R 0 0\nST 1 W 0 1\nST 1 L 0 0\nST 2 M 1 1\n";

    #[test]
    fn a_text_is_read_as_it_was_written() {
        let step =
            |thread, kind, location, value| Step { thread, access: Some(Access { kind, location, value }) };
        let report =
            Report::NotRobust { count: 7, steps: 3, thread: 2, kind: Kind::Read, location: 0, value: 0 };
        let steps =
            vec![step(1, Kind::Write, 0, 1), Step { thread: 1, access: None }, step(2, Kind::Update, 1, 1)];
        assert_eq!(report_in(SB), Some((report, steps)));
        assert_eq!(report_in("RB 13\n"), Some((Report::Robust { count: 13 }, vec![])));
        assert_eq!(report_in("FU 0\n"), Some((Report::Full { count: 0 }, vec![])));
        for number in [1, 9, 12] {
            assert_eq!(report_in(&format!("NO {number}\n")), Some((Report::Refused { number }, vec![])));
        }
    }

    #[test]
    fn a_text_that_is_cut_short_is_none() {
        for length in 0..SB.len() {
            assert_eq!(report_in(&SB[..length]), None, "{}", &SB[..length]);
        }
    }

    #[test]
    fn another_text_is_none() {
        for text in [
            "\n",
            "RB\n",
            "RB 07\n",
            "RB +7\n",
            "RB 7 \n",
            "RB 7\n\n",
            "RB 7\nST 1 W 0 1\n",
            "RB -1\n",
            "RB 7\r\n",
            "rb 7\n",
            "OK 7\n",
            "NO 0\n",
            "NO 10\n",
            "NO 11\n",
            "NO 13\n",
            "NO 012\n",
            "NO 268\n",
            "NR 7 0 2 L 0 0\n",
            "NR 7 0 2 R 0 256\n",
            "NR 7 1 2 R 0 0\nST 1 X 0 0\n",
            "NR 7 1 2 R 0 0\nST 1 L 0 1\n",
            "NR 7 1 2 R 0 0\nST 1 L 0 0 0\n",
            "NR 7 1 2 R 0 0\nST 1 R 0\n",
            "NR 7 1 2 R 0 0\nRB 7\n",
            "NR 7 1 2 R 0 0\nST 1 L 0 0\nST 1 L 0 0\n",
        ] {
            assert_eq!(report_in(text), None, "{text}");
        }
    }
}

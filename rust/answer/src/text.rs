//! The lines of the printing program, each without its end.

use std::fmt::{self, Display, Formatter};

use crate::kind::Kind;
use crate::report::Report;
use crate::step::{Access, Step};

/// The first line.
impl Display for Report {
    fn fmt(&self, to: &mut Formatter) -> fmt::Result {
        match self {
            Report::Robust { count } => write!(to, "RB {count}"),
            Report::NotRobust { count, steps, thread, kind, location, value } => {
                write!(to, "NR {count} {steps} {thread} {kind} {location} {value}")
            }
            Report::Full { count } => write!(to, "FU {count}"),
            Report::Short { .. } => write!(to, "NO 10"),
            Report::Refused { number } => write!(to, "NO {number}"),
        }
    }
}

/// The ST line.
impl Display for Step {
    fn fmt(&self, to: &mut Formatter) -> fmt::Result {
        match (self.thread, self.access) {
            (thread, Some(Access { kind, location, value })) => {
                write!(to, "ST {thread} {kind} {location} {value}")
            }
            (thread, None) => write!(to, "ST {thread} L 0 0"),
        }
    }
}

/// The letter.
impl Display for Kind {
    fn fmt(&self, to: &mut Formatter) -> fmt::Result {
        to.write_str(match self {
            Kind::Read => "R",
            Kind::Write => "W",
            Kind::Update => "M",
        })
    }
}

#[cfg(test)]
mod tests {
    use super::{Access, Kind, Report, Step};

    #[test]
    fn each_report_has_its_line() {
        let not_robust =
            |kind| Report::NotRobust { count: 2, steps: 3, thread: 4, kind, location: 6, value: 15 };
        for (report, line) in [
            (Report::Robust { count: 13 }, "RB 13"),
            (not_robust(Kind::Read), "NR 2 3 4 R 6 15"),
            (not_robust(Kind::Write), "NR 2 3 4 W 6 15"),
            (not_robust(Kind::Update), "NR 2 3 4 M 6 15"),
            (Report::Full { count: 0 }, "FU 0"),
            (Report::Short { wanted: 12 }, "NO 10"),
            (Report::Refused { number: 9 }, "NO 9"),
            (Report::Refused { number: 12 }, "NO 12"),
        ] {
            assert_eq!(report.to_string(), line);
        }
    }

    #[test]
    fn each_step_has_its_line() {
        let step = |kind| Step { thread: 8, access: Some(Access { kind, location: 15, value: 14 }) };
        for (step, line) in [
            (step(Kind::Read), "ST 8 R 15 14"),
            (step(Kind::Write), "ST 8 W 15 14"),
            (step(Kind::Update), "ST 8 M 15 14"),
            (Step { thread: 2, access: None }, "ST 2 L 0 0"),
        ] {
            assert_eq!(step.to_string(), line);
        }
    }
}

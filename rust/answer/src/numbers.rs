//! The eight numbers of a report, both ways.

use crate::kind::Kind;
use crate::report::Report;

/// Verdict, number, count, steps, thread, kind, location, value. What a verdict does not use is 0.
pub type EightNumbers = [u64; 8];

// The verdicts by their numbers, and the two checks after the search.
const RB: u64 = 0;
const NR: u64 = 1;
const FU: u64 = 2;
const REFUSED: u64 = 3;
const TRACE_SHORT: u64 = 10;
const TABLE_FULL: u64 = 11;

impl Report {
    /// The report that the numbers stand for, if they stand for one.
    pub fn of(numbers: EightNumbers) -> Option<Report> {
        // The library is for 64-bit machines only, so that these fit.
        let size = |number: u64| number as usize;
        Some(match numbers {
            [RB, 0, count, 0, 0, 0, 0, 0] => Report::Robust { count: size(count) },
            [NR, 0, count, steps, thread, kind, location, value @ 0..=255] => Report::NotRobust {
                count: size(count),
                steps: size(steps),
                thread: size(thread),
                kind: Kind::of(kind)?,
                location: size(location),
                value: value as u8,
            },
            [FU, TABLE_FULL, count, 0, 0, 0, 0, 0] => Report::Full { count: size(count) },
            [REFUSED, TRACE_SHORT, 0, wanted, 0, 0, 0, 0] => Report::Short { wanted: size(wanted) },
            [REFUSED, number, 0, 0, 0, 0, 0, 0] => Report::refused(u8::try_from(number).ok()?)?,
            _ => return None,
        })
    }

    /// The numbers that stand for the report.
    pub fn numbers(self) -> EightNumbers {
        let number = |size: usize| size as u64;
        match self {
            Report::Robust { count } => [RB, 0, number(count), 0, 0, 0, 0, 0],
            Report::NotRobust { count, steps, thread, kind, location, value } => {
                let [count, steps, thread, location] = [count, steps, thread, location].map(number);
                [NR, 0, count, steps, thread, kind.number().into(), location, value.into()]
            }
            Report::Full { count } => [FU, TABLE_FULL, number(count), 0, 0, 0, 0, 0],
            Report::Short { wanted } => [REFUSED, TRACE_SHORT, 0, number(wanted), 0, 0, 0, 0],
            Report::Refused { number } => [REFUSED, number.into(), 0, 0, 0, 0, 0, 0],
        }
    }
}

#[cfg(test)]
mod tests {
    use super::{Kind, Report};

    /// A report of each sort with its numbers.
    fn all() -> Vec<([u64; 8], Report)> {
        let not_robust =
            |kind| Report::NotRobust { count: 2, steps: 3, thread: 4, kind, location: 6, value: 7 };
        vec![
            ([1, 0, 2, 3, 4, 1, 6, 7], not_robust(Kind::Read)),
            ([1, 0, 2, 3, 4, 2, 6, 7], not_robust(Kind::Write)),
            ([1, 0, 2, 3, 4, 3, 6, 7], not_robust(Kind::Update)),
            ([0, 0, 5, 0, 0, 0, 0, 0], Report::Robust { count: 5 }),
            ([2, 11, 0, 0, 0, 0, 0, 0], Report::Full { count: 0 }),
            ([3, 10, 0, 8, 0, 0, 0, 0], Report::Short { wanted: 8 }),
            ([3, 1, 0, 0, 0, 0, 0, 0], Report::Refused { number: 1 }),
            ([3, 9, 0, 0, 0, 0, 0, 0], Report::Refused { number: 9 }),
            ([3, 12, 0, 0, 0, 0, 0, 0], Report::Refused { number: 12 }),
        ]
    }

    #[test]
    fn each_number_has_its_place() {
        for (numbers, report) in all() {
            assert_eq!(Report::of(numbers), Some(report));
        }
    }

    #[test]
    fn a_report_has_these_numbers() {
        for (numbers, report) in all() {
            assert_eq!(report.numbers(), numbers);
        }
    }

    #[test]
    fn other_numbers_are_no_report() {
        let none = [
            [u64::MAX; 8],
            [0, 0, 5, 1, 0, 0, 0, 0],
            [0, 1, 5, 0, 0, 0, 0, 0],
            [1, 0, 2, 3, 4, 0, 6, 7],
            [1, 0, 2, 3, 4, 4, 6, 7],
            [2, 10, 5, 0, 0, 0, 0, 0],
            [3, 0, 0, 0, 0, 0, 0, 0],
            [3, 10, 7, 3, 0, 0, 0, 0],
            [3, 11, 0, 0, 0, 0, 0, 0],
            [3, 11, 5, 0, 0, 0, 0, 0],
            [3, 12, 1, 0, 0, 0, 0, 0],
            [3, 13, 0, 0, 0, 0, 0, 0],
            [3, 256 + 12, 0, 0, 0, 0, 0, 0],
            [4, 0, 0, 0, 0, 0, 0, 0],
        ];
        for numbers in none {
            assert_eq!(Report::of(numbers), None, "{numbers:?}");
        }
    }
}

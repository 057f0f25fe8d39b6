//! What the second program says, and whether a checker says the same.

use answer::{steps_in, Access, EightNumbers, Kind, Report, Step};
use program::{place_size, places_available, read, Program};
use second::{Answer, Ending, Search, Witness};

/// How much is lent.
#[derive(Clone, Copy, Debug, PartialEq, Eq)]
pub struct Lengths {
    /// The length of the table.
    pub table: usize,
    /// The length of the trace.
    pub trace: usize,
}

/// What the second program says of program bytes, for every length that gives no more places than it was asked for.
pub struct Expected {
    program: Result<(Program, Search), u8>,
}

impl Expected {
    /// Searches the program in at most so many places.
    pub fn new(bytes: &[u8], places: usize) -> Expected {
        let searched = |program: Program| {
            let search = Search::new(&program, places);
            (program, search)
        };
        Expected { program: read(bytes).map(searched) }
    }

    /// The search, if the program is accepted.
    pub fn search(&self) -> Option<&Search> {
        self.program.as_ref().ok().map(|(_, search)| search)
    }

    /// Whether the program is accepted and has a fence.
    pub fn has_fence(&self) -> bool {
        self.program.as_ref().is_ok_and(|(program, _)| program.has_fence())
    }

    /// Whether the search found a witness.
    pub fn is_not_robust(&self) -> bool {
        self.search().is_some_and(|search| matches!(search.ending, Ending::Witness(_)))
    }

    /// How many places the search found, none if the program is refused.
    pub fn places(&self) -> usize {
        self.search().map_or(0, |search| search.places.len())
    }

    /// The size of a place, of no thread and no location if the program is refused.
    pub fn place_size(&self) -> usize {
        let (threads, locations) = self.sizes();
        place_size(threads, locations)
    }

    /// The threads and the locations of a place, that of the fences counted; both 0 if the program is refused.
    pub(super) fn sizes(&self) -> (usize, usize) {
        let sizes =
            |(program, _): &(Program, Search)| (program.threads.len(), program.all_locations().into());
        self.program.as_ref().map_or((0, 0), sizes)
    }

    /// The report for these lengths.
    pub fn report(&self, lengths: Lengths) -> second::Report {
        match &self.program {
            Err(number) => second::Report::refused(*number),
            Ok((_, search)) => {
                let (threads, locations) = self.sizes();
                search.report(places_available(lengths.table, threads, locations), lengths.trace)
            }
        }
    }
}

/// Whether a checker's numbers are the second program's answer: nothing of it is free.
pub(super) fn agrees(found: EightNumbers, expected: &Answer) -> bool {
    Report::of(found) == Some(report_of(expected))
}

fn report_of(answer: &Answer) -> Report {
    match *answer {
        Answer::Robust { count } => Report::Robust { count },
        Answer::NotRobust { count, steps, witness: Witness { thread, kind, location, value } } => {
            Report::NotRobust { count, steps, thread, kind: kind_of(kind), location, value }
        }
        Answer::Full { count } => Report::Full { count },
        Answer::ShortTrace { wanted } => Report::Short { wanted },
        Answer::Refused { number } => Report::Refused { number },
    }
}

/// Whether the bytes of a trace, as whoever calls a checker reads them, are the second program's steps.
pub(super) fn has_steps(trace: &[u8], expected: &[second::Step]) -> bool {
    let step = |step: &second::Step| {
        let access = step.access.map(|second::Access { kind, location, value }| Access {
            kind: kind_of(kind),
            location: location as u8,
            value,
        });
        Step { thread: step.thread as u8, access }
    };
    steps_in(trace) == Some(expected.iter().map(step).collect())
}

fn kind_of(kind: second::Kind) -> Kind {
    match kind {
        second::Kind::Read => Kind::Read,
        second::Kind::Write => Kind::Write,
        second::Kind::Update => Kind::Update,
    }
}

#[cfg(test)]
mod tests {
    use super::*;

    #[test]
    fn no_other_wanted_length_agrees() {
        let expected = Answer::ShortTrace { wanted: 12 };
        let told = |wanted| [3, 10, 0, wanted, 0, 0, 0, 0];
        let agreed: Vec<u64> = (0..=100).filter(|&wanted| agrees(told(wanted), &expected)).collect();
        assert_eq!(agreed, [12]);
    }
}

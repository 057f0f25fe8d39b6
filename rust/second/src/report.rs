//! The verdict and what is written: document 01, sections "Checks", "Table" and "The printing program", with the steps
//! and the wanted length of document 02, Points 1 and 2, and the places of its Points 3 and 5.

use std::fmt::{self, Display, Formatter};

use program::{places_available, read};

use crate::search::{Ending, Place, Search};
use crate::step::{Access, Step};
use crate::thread::Kind;
use crate::witness::Witness;

/// The checker's answer.
#[derive(Clone, Debug, PartialEq, Eq)]
#[allow(missing_docs)] // The fields are named as in document 01.
pub enum Answer {
    /// RB
    Robust { count: usize },
    /// NR
    NotRobust { count: usize, steps: usize, witness: Witness },
    /// 11, printed as FU
    Full { count: usize },
    /// 10, with the wanted length: "exactly the bytes the trace needs"
    ShortTrace { wanted: usize },
    /// 1 to 9, or 12
    Refused { number: u8 },
}

/// The answer, and what is written into table and trace.
#[derive(Clone, Debug, PartialEq, Eq)]
pub struct Report {
    /// The answer.
    pub answer: Answer,
    /// The places that are written, from the first.
    pub places: Vec<Place>,
    /// The steps that the trace gets at its front; none where it is unchanged.
    pub steps: Vec<Step>,
}

/// The printing program has "a table of 49,152 bytes", and its "trace grows to 8,192 bytes".
pub const PRINTING: [usize; 2] = [49_152, 8_192];

/// The report on program bytes, with a table and a trace of these lengths.
pub fn check(bytes: &[u8], table: usize, trace: usize) -> Report {
    match read(bytes) {
        Err(number) => Report::refused(number),
        Ok(program) => {
            let available = places_available(table, program.threads.len(), program.all_locations().into());
            Search::new(&program, available).report(available, trace)
        }
    }
}

impl Report {
    /// The report with the number of a check before the search.
    pub fn refused(number: u8) -> Report {
        Report { answer: Answer::Refused { number }, places: Vec::new(), steps: Vec::new() }
    }

    /// The bytes that the trace gets at its front; none where it is unchanged.
    pub fn trace(&self) -> Vec<u8> {
        self.steps.iter().flat_map(Step::bytes).collect()
    }
}

impl Search {
    /// The report with so many places, no more than the search had, and a trace of this length.
    pub fn report(&self, available: usize, trace: usize) -> Report {
        let found = self.places.len();
        if available < found || self.ending == Ending::Full {
            let count = available.min(found);
            return self.written(Answer::Full { count }, count, Vec::new());
        }
        let Ending::Witness(witness) = self.ending else {
            return self.written(Answer::Robust { count: found }, found, Vec::new());
        };
        let steps = self.steps_to(found);
        // "Check 10 then wants four bytes for each step".
        let wanted = Step::BYTES * steps.len();
        if trace < wanted {
            self.written(Answer::ShortTrace { wanted }, found, Vec::new())
        } else {
            self.written(Answer::NotRobust { count: found, steps: steps.len(), witness }, found, steps)
        }
    }

    fn written(&self, answer: Answer, count: usize, steps: Vec<Step>) -> Report {
        Report { answer, places: self.places[..count].to_vec(), steps }
    }
}

/// The lines of the printing program.
impl Display for Report {
    fn fmt(&self, to: &mut Formatter) -> fmt::Result {
        match &self.answer {
            Answer::Robust { count } => writeln!(to, "RB {count}")?,
            Answer::Full { count } => writeln!(to, "FU {count}")?,
            Answer::ShortTrace { .. } => writeln!(to, "NO 10")?,
            Answer::Refused { number } => writeln!(to, "NO {number}")?,
            Answer::NotRobust { count, steps, witness: Witness { thread, kind, location, value } } => {
                writeln!(to, "NR {count} {steps} {thread} {kind} {location} {value}")?;
            }
        }
        self.steps.iter().try_for_each(|step| writeln!(to, "ST {step}"))
    }
}

/// "An ST line becomes thread, kind, location, value".
impl Display for Step {
    fn fmt(&self, to: &mut Formatter) -> fmt::Result {
        match self.access {
            Some(Access { kind, location, value }) => {
                write!(to, "{} {kind} {location} {value}", self.thread)
            }
            None => write!(to, "{} L 0 0", self.thread),
        }
    }
}

impl Display for Kind {
    fn fmt(&self, to: &mut Formatter) -> fmt::Result {
        to.write_str(match self {
            Kind::Read => "R",
            Kind::Write => "W",
            Kind::Update => "M",
        })
    }
}

//! One call of a checker, and where it answers or writes otherwise than the second program.

use answer::EightNumbers;
use second::Report;

use super::expected::{agrees, has_steps, Expected, Lengths};
use super::lent::Lent;
use super::place::decode;

/// One call of a checker.
pub struct Run {
    answer: EightNumbers,
    table: Lent<u8>,
    trace: Lent<u8>,
}

impl Run {
    /// A call by a function that gets table and trace, each filled by its places.
    pub fn filled(
        call: impl FnOnce(&mut [u8], &mut [u8]) -> EightNumbers,
        lengths: Lengths,
        filling: impl Fn(usize) -> u8,
    ) -> Run {
        Run::new(call, Lent::filled(lengths.table, &filling), Lent::filled(lengths.trace, &filling))
    }

    /// A call in the memory that this one left.
    pub fn again(&self, call: impl FnOnce(&mut [u8], &mut [u8]) -> EightNumbers) -> Run {
        Run::new(call, self.table.again(), self.trace.again())
    }

    fn new(
        call: impl FnOnce(&mut [u8], &mut [u8]) -> EightNumbers,
        mut table: Lent<u8>,
        mut trace: Lent<u8>,
    ) -> Run {
        let answer = call(table.lend(), trace.lend());
        Run { answer, table, trace }
    }

    /// Where this run differs from what is expected, if it does.
    pub fn difference(&self, report: &Report, expected: &Expected) -> Option<String> {
        if !agrees(self.answer, &report.answer) {
            return Some(format!("answer: expected {:?}, found {:?}", report.answer, self.answer));
        }
        let trace = report.trace();
        let found = self.trace.front(trace.len());
        if found != trace {
            return Some(format!("trace: expected {trace:?}, found {found:?}"));
        }
        if !has_steps(found, &report.steps) {
            return Some(format!("trace: {found:?} is not read as {:?}", report.steps));
        }
        self.place_difference(report, expected).or_else(|| self.changed(report, expected))
    }

    /// Where this run, with other memory, differs from one that is as expected.
    pub fn difference_from(&self, first: &Run, report: &Report, expected: &Expected) -> Option<String> {
        if self.answer != first.answer {
            return Some(format!("what was lent changes the answer {:?} to {:?}", first.answer, self.answer));
        }
        let places = report.places.len() * expected.place_size();
        if self.table.front(places) != first.table.front(places) {
            return Some("what was lent changes the places".into());
        }
        let trace = report.trace();
        if self.trace.front(trace.len()) != trace {
            return Some("what was lent changes the trace".into());
        }
        self.changed(report, expected)
    }

    /// A byte that had to stay as it was.
    fn changed(&self, report: &Report, expected: &Expected) -> Option<String> {
        let table = self.table.changed(report.places.len() * expected.place_size());
        let trace = self.trace.changed(report.trace().len());
        let what = |what, at: Option<isize>| at.map(|at| format!("{what}: byte {at} changed"));
        what("table", table).or(what("trace", trace))
    }

    /// The first place that differs.
    fn place_difference(&self, report: &Report, expected: &Expected) -> Option<String> {
        let (threads, locations) = expected.sizes();
        let size = expected.place_size();
        let places = self.table.front(report.places.len() * size).chunks(size);
        places.zip(&report.places).enumerate().find_map(|(place, (bytes, expected))| {
            let what = |found: &dyn std::fmt::Debug| {
                format!("place {}: expected {expected:?}, found {found:?} in {bytes:?}", place + 1)
            };
            let Some(found) = decode(bytes, threads, locations) else {
                return Some(what(&"bytes that are no place"));
            };
            let same = found.from == expected.from
                && found.by == expected.by
                && found.fingerprint == found.due
                && found.situation == *expected.situation;
            (!same).then(|| what(&found))
        })
    }

    /// The fingerprints of the places, in a run that is as expected.
    pub fn prints(&self, report: &Report, expected: &Expected) -> Vec<u32> {
        let (threads, locations) = expected.sizes();
        let size = expected.place_size();
        let places = self.table.front(report.places.len() * size).chunks(size);
        places.filter_map(|place| Some(decode(place, threads, locations)?.fingerprint)).collect()
    }
}

//! A program and what is lent to a checker for it.

use std::time::{Duration, Instant};

use answer::{EightNumbers, Report};
use program::{encode, read, Program};

use crate::checkers::Checker;
use crate::families::{Family, Size};

/// A trace of a robust program is not written.
const TRACE: usize = 16;

/// A program, and a table of as many places as it has situations.
pub struct Lent {
    pub program: Program,
    bytes: Vec<u8>,
    situations: usize,
    /// The bytes of a place.
    pub place: usize,
    pub table: Vec<u8>,
    trace: Vec<u8>,
}

impl Lent {
    pub fn new(family: &Family, size: &Size) -> Lent {
        let program = read(&family.program(size)).expect("the assembler writes programs");
        Lent::of(program, size.situations)
    }

    fn of(program: Program, situations: usize) -> Lent {
        let place = program.place_size();
        let (bytes, table) = (encode(&program), vec![0; place * situations]);
        Lent { program, bytes, situations, place, table, trace: vec![0; TRACE] }
    }

    /// The program at the last of as many locations as there may be, with the longest places of so many threads. It gets
    /// as many of them, though it may have more situations then.
    pub fn at_last_locations(&self) -> Lent {
        let all = self.program.most_locations();
        let moved = self.program.clone().moved(all, |location| all - 1 - location);
        Lent::of(moved, self.situations)
    }

    /// The time of one run, in a table that is cleared, and so is in use already.
    ///
    /// # Panics
    ///
    /// Where the checker doesn't find the program robust with the situations that its size names.
    pub fn run(&mut self, checker: Checker, index: &mut [u64]) -> Duration {
        self.table.fill(0);
        self.trace.fill(0);
        let start = Instant::now();
        let answer = self.call(checker, index);
        let time = start.elapsed();
        assert_eq!(answer, Report::Robust { count: self.situations }.numbers());
        time
    }

    pub fn call(&mut self, checker: Checker, index: &mut [u64]) -> EightNumbers {
        checker(&self.bytes, &mut self.table, &mut self.trace, index)
    }
}

/// How many slots an index has that the places of a program fill by half or less.
pub fn fitting(size: &Size) -> usize {
    (2 * size.situations).next_power_of_two()
}

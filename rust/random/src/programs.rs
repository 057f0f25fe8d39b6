//! Random programs that the reader accepts.

use std::ops::RangeInclusive;

use program::limits::{LINES, LOCATIONS, LOCATIONS_BESIDE_A_FENCE, REGISTERS, THREADS, VALUES};
use program::{Line, Operand, Program};

use crate::Numbers;

/// How large the programs may be.
pub struct Shape {
    /// The number of threads.
    pub threads: RangeInclusive<u8>,
    /// The number of named locations.
    pub locations: RangeInclusive<u8>,
    /// The number of values.
    pub values: RangeInclusive<u8>,
    /// The number of lines of each thread.
    pub lines: RangeInclusive<u8>,
    /// The ops of the lines, each as often as it stands here.
    pub ops: &'static [u8],
}

/// Each op as often as any other.
const ALL: &[u8] = &[1, 2, 3, 4, 5, 6, 7, 8, 9, 10, 11];

/// Accesses that always have a step, mostly plain ones.
const ACCESSES: &[u8] = &[5, 5, 5, 5, 5, 5, 5, 5, 6, 6, 6, 6, 6, 6, 6, 6, 7, 7, 8, 8, 11];

/// Every op that always has a step: none waits.
const STEADY: &[u8] = &[1, 1, 2, 2, 3, 3, 4, 4, 5, 5, 5, 5, 6, 6, 6, 6, 7, 7, 8, 8, 8, 8, 11];

/// Plain reads and writes more often than the rest.
const RACES: &[u8] = &[1, 2, 3, 4, 5, 5, 5, 5, 6, 6, 6, 6, 7, 7, 8, 8, 9, 10, 11];

/// Plain accesses with fences between them.
const FENCED: &[u8] = &[4, 5, 5, 5, 5, 5, 6, 6, 6, 6, 6, 7, 11, 11];

impl Shape {
    /// Up to the limits: every accepted program can come out.
    pub fn any() -> Shape {
        Shape { threads: THREADS, locations: LOCATIONS, values: VALUES, lines: LINES, ops: ALL }
    }

    /// A few short threads, as a litmus program has them, so that a search of the program ends soon.
    pub fn small() -> Shape {
        Shape { threads: 1..=3, locations: 1..=3, values: 2..=3, lines: 0..=4, ops: ALL }
    }

    /// Two longer threads. A quarter is not robust, with steps of every kind on the way to the witness.
    pub fn winding() -> Shape {
        Shape { threads: 2..=2, locations: 2..=2, values: 2..=4, lines: 5..=9, ops: STEADY }
    }

    /// As the litmus programs of papers are: accesses to two locations. A third of them is not robust.
    pub fn litmus() -> Shape {
        Shape { threads: 2..=4, locations: 2..=2, values: 2..=4, lines: 2..=5, ops: ACCESSES }
    }

    /// Threads that race: mostly reads and writes of few values, of which many are equal.
    pub fn racing() -> Shape {
        Shape { threads: 2..=4, locations: 1..=3, values: 2..=4, lines: 2..=5, ops: RACES }
    }

    /// Longer threads, of which many loop.
    pub fn looping() -> Shape {
        Shape { threads: 2..=3, locations: 1..=3, values: 2..=4, lines: 3..=9, ops: ALL }
    }

    /// Locations and values up to the limits, in few lines.
    pub fn wide() -> Shape {
        Shape { threads: 2..=3, locations: LOCATIONS, values: VALUES, lines: 2..=6, ops: RACES }
    }

    /// Threads up to the limit, of very few lines.
    pub fn crowded() -> Shape {
        Shape { threads: 4..=*THREADS.end(), locations: 2..=2, values: 2..=3, lines: 1..=2, ops: RACES }
    }

    /// Threads of accesses with fences between them, some of which no run reaches.
    pub fn fenced() -> Shape {
        Shape { threads: 2..=3, locations: 2..=2, values: 2..=3, lines: 3..=5, ops: FENCED }
    }

    /// One of the last six, for comparing searches: mostly of two to four threads.
    pub fn mixed(numbers: &mut Numbers) -> Shape {
        match numbers.below(12) {
            0..=2 => Shape::litmus(),
            3..=5 => Shape::racing(),
            6..=7 => Shape::looping(),
            8..=9 => Shape::fenced(),
            10 => Shape::wide(),
            _ => Shape::crowded(),
        }
    }
}

/// A program of the shape.
pub fn program(numbers: &mut Numbers, shape: &Shape) -> Program {
    let locations = numbers.within(&shape.locations);
    let values = numbers.within(&shape.values);
    let threads = (0..numbers.within(&shape.threads))
        .map(|_| {
            let n = numbers.within(&shape.lines);
            (0..n).map(|_| line(numbers, shape.ops, n, locations, values)).collect()
        })
        .collect();
    Program { threads, locations, values }
}

/// The program among more than eight locations, of which a set takes two bytes, with those of its lines at any of them.
pub fn scattered(numbers: &mut Numbers, program: Program) -> Program {
    let locations = numbers.within(&(9.max(program.locations)..=program.most_locations()));
    let mut places: Vec<u8> = (0..locations).collect();
    for location in 0..usize::from(program.locations) {
        let place = location + numbers.below(places.len() - location);
        places.swap(location, place);
    }
    program.moved(locations, |location| places[usize::from(location)])
}

/// The program with a fence in place of each line once in four times, and at least of one where it has lines. Beside
/// sixteen locations the reader refuses it by check 12.
pub fn with_fences(numbers: &mut Numbers, mut program: Program) -> Program {
    let lines = program.threads.iter().map(Vec::len).sum();
    if lines > 0 {
        let sure = numbers.below(lines);
        for (place, line) in program.threads.iter_mut().flatten().enumerate() {
            if place == sure || numbers.once_in(4) {
                *line = Line::Fence;
            }
        }
    }
    program
}

/// The program with a blocking CAS from 0 to 0 in place of each fence, on one named location more, which only these
/// use: so it holds 0, and what is added is 0.
pub fn spelled_out(program: &Program) -> Program {
    let mut spelled = Program { locations: program.locations + 1, ..program.clone() };
    let zero = Operand::Constant(0);
    for line in spelled.threads.iter_mut().flatten().filter(|line| **line == Line::Fence) {
        *line = Line::Bcas { location: program.locations, a: zero, b: zero };
    }
    spelled
}

/// A line of a thread of n lines.
fn line(numbers: &mut Numbers, ops: &[u8], n: u8, locations: u8, values: u8) -> Line {
    let reg = numbers.within(&(0..=REGISTERS - 1));
    let location = numbers.within(&(0..=locations - 1));
    let target = numbers.within(&(0..=n));
    let a = operand(numbers, values);
    let b = operand(numbers, values);
    match numbers.pick(ops) {
        1 => Line::Sum { reg, a, b },
        2 => Line::Equal { reg, a, b },
        3 => Line::Less { reg, a, b },
        4 => Line::Jump { target, a },
        5 => Line::Write { location, a },
        6 => Line::Read { reg, location },
        7 => Line::Fadd { reg, location, a },
        8 => Line::Cas { reg, location, a, b },
        9 => Line::Wait { location, a },
        10 => Line::Bcas { location, a, b },
        11 if LOCATIONS_BESIDE_A_FENCE.contains(&locations) => Line::Fence,
        // Where a fence has no location, the same at a named one.
        11 => Line::Fadd { reg, location, a: Operand::Constant(0) },
        op => panic!("{op} is no op"),
    }
}

/// A constant twice as often as a register.
fn operand(numbers: &mut Numbers, values: u8) -> Operand {
    if numbers.once_in(3) {
        Operand::Register(numbers.within(&(0..=REGISTERS - 1)))
    } else {
        Operand::Constant(numbers.within(&(0..=values - 1)))
    }
}

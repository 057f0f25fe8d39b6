//! What the library must answer, worked out from what the second program reads.

use program::{Line, Operand, Program};

use super::library;

/// The lengths of a PR, a TH and an IN record in document 01.
const PR: usize = 5;
const TH: usize = 3;
const IN: usize = 7;

/// The header of what the bytes were read as.
pub fn header(program: &Result<Program, u8>) -> library::Header {
    let mut header = library::Header::default();
    match program {
        Err(number) => header.number = usize::from(*number),
        Ok(Program { threads, locations, values }) => {
            header.threads = threads.len();
            header.locations = usize::from(*locations);
            header.values = usize::from(*values);
            let mut end = PR;
            for (thread, lines) in threads.iter().enumerate() {
                header.starts[thread] = end + TH;
                header.counts[thread] = lines.len();
                end += TH + IN * lines.len();
            }
        }
    }
    header
}

/// A line of what the bytes were read as.
pub fn line(program: &Result<Program, u8>, thread: usize, line: usize) -> library::Fields {
    let lines = program.as_ref().ok().and_then(|program| program.threads.get(thread));
    match lines.and_then(|lines| lines.get(line)) {
        Some(line) => fields(line),
        None => library::Fields::default(),
    }
}

fn fields(line: &Line) -> library::Fields {
    match *line {
        Line::Sum { reg, a, b } => made(1, reg, 0, Some(a), Some(b)),
        Line::Equal { reg, a, b } => made(2, reg, 0, Some(a), Some(b)),
        Line::Less { reg, a, b } => made(3, reg, 0, Some(a), Some(b)),
        Line::Jump { target, a } => made(4, 0, target, Some(a), None),
        Line::Write { location, a } => made(5, 0, location, Some(a), None),
        Line::Read { reg, location } => made(6, reg, location, None, None),
        Line::Fadd { reg, location, a } => made(7, reg, location, Some(a), None),
        Line::Cas { reg, location, a, b } => made(8, reg, location, Some(a), Some(b)),
        Line::Wait { location, a } => made(9, 0, location, Some(a), None),
        Line::Bcas { location, a, b } => made(10, 0, location, Some(a), Some(b)),
        Line::Fence => made(11, 0, 0, None, None),
    }
}

fn made(op: usize, reg: u8, target: u8, a: Option<Operand>, b: Option<Operand>) -> library::Fields {
    let (reg, target) = (usize::from(reg), usize::from(target));
    library::Fields { op, reg, target, a: operand(a), b: operand(b) }
}

fn operand(operand: Option<Operand>) -> library::Operand {
    let (kind, number) = match operand {
        None => (0, 0),
        Some(Operand::Constant(value)) => (1, value),
        Some(Operand::Register(reg)) => (2, reg),
    };
    library::Operand { kind, number: usize::from(number) }
}

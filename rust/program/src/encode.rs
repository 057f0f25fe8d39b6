//! From a program to its bytes: document 01, section "Program bytes".

use crate::data::{Line, Operand, Program};

/// The bytes of a program that keeps to the limits.
pub fn encode(program: &Program) -> Vec<u8> {
    let mut bytes = vec![b'P', b'R', one_byte(program.threads.len()), program.locations, program.values];
    for lines in &program.threads {
        bytes.extend([b'T', b'H', one_byte(lines.len())]);
        for line in lines {
            bytes.extend(b"IN");
            bytes.extend(fields(line));
        }
    }
    bytes
}

/// The fields of a line: op, reg, target, A, B, the unused ones 0.
pub fn fields(line: &Line) -> [u8; 5] {
    match *line {
        Line::Sum { reg, a, b } => [1, reg, 0, byte(a), byte(b)],
        Line::Equal { reg, a, b } => [2, reg, 0, byte(a), byte(b)],
        Line::Less { reg, a, b } => [3, reg, 0, byte(a), byte(b)],
        Line::Jump { target, a } => [4, 0, target, byte(a), 0],
        Line::Write { location, a } => [5, 0, location, byte(a), 0],
        Line::Read { reg, location } => [6, reg, location, 0, 0],
        Line::Fadd { reg, location, a } => [7, reg, location, byte(a), 0],
        Line::Cas { reg, location, a, b } => [8, reg, location, byte(a), byte(b)],
        Line::Wait { location, a } => [9, 0, location, byte(a), 0],
        Line::Bcas { location, a, b } => [10, 0, location, byte(a), byte(b)],
        Line::Fence => [11, 0, 0, 0, 0],
    }
}

/// "0 to K−1 is that constant, 128 to 131 is register 0 to 3."
fn byte(operand: Operand) -> u8 {
    match operand {
        Operand::Constant(value) => value,
        Operand::Register(reg) => 128 + reg,
    }
}

fn one_byte(count: usize) -> u8 {
    u8::try_from(count).expect("the limits on threads and lines fit in a byte")
}

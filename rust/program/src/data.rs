//! The program as data: document 01, section "Program bytes", without the bytes, and document 02, Point 5, "Fences".

use crate::limits::{LOCATIONS, LOCATIONS_BESIDE_A_FENCE};

/// An accepted program. Threads stand in their order, so that thread 1 is the first of them.
#[derive(Clone, Debug, PartialEq, Eq)]
pub struct Program {
    /// The lines of each thread; there are T threads.
    pub threads: Vec<Vec<Line>>,
    /// L, the number of named locations: those that lines name.
    pub locations: u8,
    /// K, the number of values.
    pub values: u8,
}

/// One line, in the order of the op table: op 1 to op 11, each with the fields that it uses.
#[derive(Clone, Copy, Debug, PartialEq, Eq)]
#[allow(missing_docs)] // The fields are named as in document 01.
pub enum Line {
    /// reg := A + B modulo K
    Sum { reg: u8, a: Operand, b: Operand },
    /// reg := 1 if A = B else 0
    Equal { reg: u8, a: Operand, b: Operand },
    /// reg := 1 if A < B else 0
    Less { reg: u8, a: Operand, b: Operand },
    /// go to target, a line, if A is not 0
    Jump { target: u8, a: Operand },
    /// write A
    Write { location: u8, a: Operand },
    /// read into reg
    Read { reg: u8, location: u8 },
    /// FADD: add A modulo K, reg := old value
    Fadd { reg: u8, location: u8, a: Operand },
    /// CAS from A to B, reg := value found
    Cas { reg: u8, location: u8, a: Operand, b: Operand },
    /// wait until the value is A
    Wait { location: u8, a: Operand },
    /// blocking CAS from A to B
    Bcas { location: u8, a: Operand, b: Operand },
    /// a full fence: "FADD of 0 on a location of its own", which "uses no field and changes no register"
    Fence,
}

impl Program {
    /// Whether "the program has an op 11", in a line that runs reach or in one that they don't.
    pub fn has_fence(&self) -> bool {
        self.threads.iter().flatten().any(|line| *line == Line::Fence)
    }

    /// The number of locations that runs, situations and places have: the L named ones and, where the program has a
    /// fence, its own, "numbered after the L named ones".
    pub fn all_locations(&self) -> u8 {
        self.locations + u8::from(self.has_fence())
    }

    /// The most named locations that a program of these lines may have.
    pub fn most_locations(&self) -> u8 {
        *if self.has_fence() { LOCATIONS_BESIDE_A_FENCE } else { LOCATIONS }.end()
    }

    /// The location of the access that a line of this program makes, if it does: the one that the line names, and for a
    /// fence its own.
    pub fn accessed(&self, line: Line) -> Option<u8> {
        match line {
            Line::Fence => Some(self.locations),
            _ => line.location(),
        }
    }

    /// The same program among so many named locations, of which each line gets the one that its own goes to.
    pub fn moved(mut self, locations: u8, to: impl Fn(u8) -> u8) -> Program {
        let lines = self.threads.iter_mut().flatten();
        lines.filter_map(Line::location_mut).for_each(|location| *location = to(*location));
        Program { locations, ..self }
    }
}

impl Line {
    /// The location that the line names, if it does. A fence names none: [`Program::accessed`] has its own.
    pub fn location(mut self) -> Option<u8> {
        self.location_mut().copied()
    }

    fn location_mut(&mut self) -> Option<&mut u8> {
        match self {
            Line::Write { location, .. }
            | Line::Read { location, .. }
            | Line::Fadd { location, .. }
            | Line::Cas { location, .. }
            | Line::Wait { location, .. }
            | Line::Bcas { location, .. } => Some(location),
            Line::Sum { .. } | Line::Equal { .. } | Line::Less { .. } | Line::Jump { .. } | Line::Fence => {
                None
            }
        }
    }
}

/// "A and B are operands".
#[derive(Clone, Copy, Debug, PartialEq, Eq)]
pub enum Operand {
    /// "0 to K−1 is that constant"
    Constant(u8),
    /// "128 to 131 is register 0 to 3"
    Register(u8),
}

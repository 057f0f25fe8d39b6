//! Thread states, and what a thread's next line does: document 01, the op table and section "Graphs", and document 02,
//! Point 5.

use program::limits::REGISTERS;
use program::{Line, Operand, Program};

/// "A thread state is a thread's line and registers."
#[derive(Clone, Copy, Debug, PartialEq, Eq, Hash)]
pub struct Thread {
    /// The line that it takes next; n at its end.
    pub line: u8,
    /// Its registers.
    pub registers: [u8; REGISTERS as usize],
}

/// The kind of an access, with the letter of the printing program.
#[derive(Clone, Copy, Debug, PartialEq, Eq)]
pub enum Kind {
    /// R
    Read,
    /// W
    Write,
    /// M, a read-modify-write
    Update,
}

/// What an access is in the graph, with the value that it writes.
#[derive(Clone, Copy, Debug, PartialEq, Eq)]
pub enum Action {
    /// R
    Read,
    /// W
    Write(u8),
    /// M
    Update(u8),
}

impl Action {
    /// Its kind.
    pub fn kind(self) -> Kind {
        match self {
            Action::Read => Kind::Read,
            Action::Write(_) => Kind::Write,
            Action::Update(_) => Kind::Update,
        }
    }
}

/// A thread's next line, with its operands evaluated.
pub enum Next {
    /// Ops 1 to 4 "change that thread's state only", to this one.
    Local(Thread),
    /// "Any other line makes one access."
    Access(Due),
}

/// An access that is due. What it does depends on the value of the write w that it picks.
pub struct Due {
    pub location: usize,
    wish: Wish,
    /// "reg, where the line uses it, takes the value that w wrote".
    reg: Option<u8>,
    /// K.
    values: u8,
    /// The thread state after the line, but for reg.
    after: Thread,
}

#[derive(Clone, Copy)]
enum Wish {
    Write(u8),
    Read,
    Fadd(u8),
    Cas { from: u8, to: u8 },
    Wait(u8),
    Bcas { from: u8, to: u8 },
}

impl Thread {
    /// "Every thread starts at line 0 with its registers 0".
    pub const START: Thread = Thread { line: 0, registers: [0; REGISTERS as usize] };

    /// The next line of this thread, which has these lines of the program; "a thread at its line n has none".
    pub fn next(self, lines: &[Line], program: &Program) -> Option<Next> {
        let values = program.values;
        let value = |operand| match operand {
            Operand::Constant(value) => value,
            Operand::Register(reg) => self.registers[usize::from(reg)],
        };
        let on = Thread { line: self.line + 1, ..self };
        let assign = |reg, value| Next::Local(on.with(reg, value));
        let access = |location: u8, reg, wish| {
            Next::Access(Due { location: location.into(), wish, reg, values, after: on })
        };
        Some(match *lines.get(usize::from(self.line))? {
            Line::Sum { reg, a, b } => assign(reg, (value(a) + value(b)) % values),
            Line::Equal { reg, a, b } => assign(reg, u8::from(value(a) == value(b))),
            Line::Less { reg, a, b } => assign(reg, u8::from(value(a) < value(b))),
            Line::Jump { target, a } if value(a) != 0 => Next::Local(Thread { line: target, ..self }),
            Line::Jump { .. } => Next::Local(on),
            Line::Write { location, a } => access(location, None, Wish::Write(value(a))),
            Line::Read { reg, location } => access(location, Some(reg), Wish::Read),
            Line::Fadd { reg, location, a } => access(location, Some(reg), Wish::Fadd(value(a))),
            Line::Cas { reg, location, a, b } => {
                access(location, Some(reg), Wish::Cas { from: value(a), to: value(b) })
            }
            Line::Wait { location, a } => access(location, None, Wish::Wait(value(a))),
            Line::Bcas { location, a, b } => {
                access(location, None, Wish::Bcas { from: value(a), to: value(b) })
            }
            // "It is FADD of 0 on a location of its own, numbered after the L named ones", and "changes no register".
            Line::Fence => access(program.locations, None, Wish::Fadd(0)),
        })
    }

    fn with(mut self, reg: u8, value: u8) -> Thread {
        self.registers[usize::from(reg)] = value;
        self
    }
}

impl Due {
    /// What the access does when the write that it picks wrote `found`; nothing where "ops 9 and 10 have a step only
    /// with a w of value A". "A failed CAS is a plain read."
    pub fn action(&self, found: u8) -> Option<Action> {
        match self.wish {
            Wish::Write(value) => Some(Action::Write(value)),
            Wish::Read => Some(Action::Read),
            Wish::Fadd(value) => Some(Action::Update((found + value) % self.values)),
            Wish::Cas { from, to } if found == from => Some(Action::Update(to)),
            Wish::Cas { .. } => Some(Action::Read),
            Wish::Wait(value) => (found == value).then_some(Action::Read),
            Wish::Bcas { from, to } => (found == from).then_some(Action::Update(to)),
        }
    }

    /// The thread state after the access, when the write that it picks wrote `found`.
    pub fn after(&self, found: u8) -> Thread {
        match self.reg {
            Some(reg) => self.after.with(reg, found),
            None => self.after,
        }
    }
}

//! One line of a thread, each op as the paper writes it.

use std::ops::RangeInclusive;

use program::limits::{LOCATIONS_BESIDE_A_FENCE, REGISTERS};
use program::{Line, Operand};

use crate::cursor::Cursor;
use crate::lexer::{Piece, Token};
use crate::mistake::Mistake;
use crate::names::{register, register_name, with_names, Kind, Names, FENCE};

/// What holds where a line stands: the number of values, and the names.
#[derive(Clone, Default)]
pub struct Scope<'a> {
    pub values: u8,
    pub names: Names<'a>,
}

/// What a jump goes to.
const A_LABEL: &str = "a label of this thread";

/// What a mistake says of a number that is too large.
pub const AT_MOST: &str = "at most";

/// A line, but a jump still with its label, which may stand further down.
pub enum Instruction<'a> {
    Line(Line),
    Jump { a: Operand, label: Token<'a> },
}

impl<'a> Scope<'a> {
    /// The line that comes next, without its end.
    pub fn instruction(&self, cursor: &mut Cursor<'a>) -> Result<Instruction<'a>, Mistake> {
        if cursor.take_if("if") {
            let a = self.operand(cursor)?;
            cursor.expect("goto")?;
            return jump(cursor, a);
        }
        if cursor.take_if("goto") {
            return jump(cursor, Operand::Constant(1));
        }
        let line = if cursor.take_if("wait") {
            self.wait(cursor)?
        } else if cursor.take_if("BCAS") {
            let (location, a, b) = self.exchange(cursor)?;
            Line::Bcas { location, a, b }
        } else if cursor.peek().piece == Piece::Word(FENCE) {
            self.fence(cursor)?
        } else if let Some(reg) = self.register_at(cursor) {
            cursor.take();
            cursor.expect(":=")?;
            self.assignment(cursor, reg)?
        } else if let Some(location) = self.location_at(cursor) {
            cursor.take();
            cursor.expect(":=")?;
            Line::Write { location, a: self.operand(cursor)? }
        } else {
            return Err(cursor.mistake(format!(
                "a line that starts with {}, {}, 'if', 'goto', 'wait', 'BCAS' or 'fence'",
                self.a_register(),
                self.a_location()
            )));
        };
        Ok(Instruction::Line(line))
    }

    /// What follows `r0 :=`: ops 1, 2, 3, 6, 7 and 8. An operand alone is its sum with 0.
    fn assignment(&self, cursor: &mut Cursor<'a>, reg: u8) -> Result<Line, Mistake> {
        if cursor.take_if("FADD") {
            cursor.expect("(")?;
            let location = self.location(cursor)?;
            cursor.expect(",")?;
            let a = self.operand(cursor)?;
            cursor.expect(")")?;
            return Ok(Line::Fadd { reg, location, a });
        }
        if cursor.take_if("CAS") {
            let (location, a, b) = self.exchange(cursor)?;
            return Ok(Line::Cas { reg, location, a, b });
        }
        if let Some(location) = self.location_at(cursor) {
            cursor.take();
            return Ok(Line::Read { reg, location });
        }
        let a = self.operand_at(cursor).ok_or_else(|| {
            let (value, register, location) = (self.a_value(), self.a_register(), self.a_location());
            cursor.mistake(format!("{value}, {register}, {location}, 'FADD' or 'CAS'"))
        })?;
        cursor.take();
        if cursor.take_if("=") {
            Ok(Line::Equal { reg, a, b: self.operand(cursor)? })
        } else if cursor.take_if("<") {
            Ok(Line::Less { reg, a, b: self.operand(cursor)? })
        } else if cursor.take_if("+") {
            Ok(Line::Sum { reg, a, b: self.operand(cursor)? })
        } else {
            Ok(Line::Sum { reg, a, b: Operand::Constant(0) })
        }
    }

    /// `fence`, where the named locations leave room for its own.
    fn fence(&self, cursor: &mut Cursor<'a>) -> Result<Line, Mistake> {
        let (named, most) = (self.names.of_kind(Kind::Location).len(), *LOCATIONS_BESIDE_A_FENCE.end());
        if named > most.into() {
            let mistake = cursor.mistake(format!("{AT_MOST} {most} locations beside a fence"));
            return Err(Mistake { found: named.to_string(), ..mistake });
        }
        cursor.take();
        Ok(Line::Fence)
    }

    /// `(x = 1)` after `wait`.
    fn wait(&self, cursor: &mut Cursor<'a>) -> Result<Line, Mistake> {
        cursor.expect("(")?;
        let location = self.location(cursor)?;
        cursor.expect("=")?;
        let a = self.operand(cursor)?;
        cursor.expect(")")?;
        Ok(Line::Wait { location, a })
    }

    /// `(x, 0 -> 1)` after `CAS` or `BCAS`.
    fn exchange(&self, cursor: &mut Cursor<'a>) -> Result<(u8, Operand, Operand), Mistake> {
        cursor.expect("(")?;
        let location = self.location(cursor)?;
        cursor.expect(",")?;
        let a = self.operand(cursor)?;
        cursor.expect("->")?;
        let b = self.operand(cursor)?;
        cursor.expect(")")?;
        Ok((location, a, b))
    }

    fn operand(&self, cursor: &mut Cursor<'a>) -> Result<Operand, Mistake> {
        let expected = || format!("{} or {}", self.a_value(), self.a_register());
        self.taken(cursor, Scope::operand_at, expected)
    }

    fn location(&self, cursor: &mut Cursor<'a>) -> Result<u8, Mistake> {
        self.taken(cursor, Scope::location_at, || self.a_location())
    }

    /// Passes a value, which must come next.
    pub fn value(&self, cursor: &mut Cursor<'a>) -> Result<u8, Mistake> {
        self.taken(cursor, Scope::value_at, || self.a_value())
    }

    /// Passes a register, which must come next.
    pub fn register(&self, cursor: &mut Cursor<'a>) -> Result<u8, Mistake> {
        self.taken(cursor, Scope::register_at, || self.a_register())
    }

    /// Passes what must come next, or says what was expected.
    fn taken<T>(
        &self,
        cursor: &mut Cursor<'a>,
        at: fn(&Self, &Cursor<'a>) -> Option<T>,
        expected: impl Fn() -> String,
    ) -> Result<T, Mistake> {
        let found = at(self, cursor).ok_or_else(|| cursor.mistake(expected()))?;
        cursor.take();
        Ok(found)
    }

    fn operand_at(&self, cursor: &Cursor<'a>) -> Option<Operand> {
        self.operand_of(cursor.peek().piece)
    }

    /// The value or the register that the piece is.
    pub fn operand_of(&self, piece: Piece) -> Option<Operand> {
        let constant = self.value_of(piece).map(Operand::Constant);
        constant.or(self.register_of(piece).map(Operand::Register))
    }

    fn value_at(&self, cursor: &Cursor<'a>) -> Option<u8> {
        self.value_of(cursor.peek().piece)
    }

    fn value_of(&self, piece: Piece) -> Option<u8> {
        let number = piece.number_in(&(0..=u8::MAX)).filter(|&number| number < self.values);
        number.or(self.names.find(Kind::Constant, piece))
    }

    fn register_at(&self, cursor: &Cursor<'a>) -> Option<u8> {
        self.register_of(cursor.peek().piece)
    }

    /// The register that the piece names, by its number or by a name of the text.
    pub fn register_of(&self, piece: Piece) -> Option<u8> {
        let named = self.names.find(Kind::Register, piece);
        named.or(if let Piece::Word(word) = piece { register(word) } else { None })
    }

    fn location_at(&self, cursor: &Cursor<'a>) -> Option<u8> {
        self.names.find(Kind::Location, cursor.peek().piece)
    }

    fn a_value(&self) -> String {
        let values = format!("a value from 0 to {}", self.values - 1);
        with_names(&values, &self.names.of_kind(Kind::Constant))
    }

    fn a_register(&self) -> String {
        let numbered = all_registers();
        let names = [vec![numbered.as_str()], self.names.of_kind(Kind::Register)].concat();
        with_names("a register", &names)
    }

    fn a_location(&self) -> String {
        with_names("a location", &self.names.of_kind(Kind::Location))
    }

    /// A label of the thread, all of whose labels are known.
    pub fn a_label(&self) -> String {
        match &self.names.of_kind(Kind::Label)[..] {
            [] => format!("{A_LABEL}, which has none"),
            names => with_names(A_LABEL, names),
        }
    }
}

/// `r0 to r3`
pub fn all_registers() -> String {
    format!("{} to {}", register_name(0), register_name(REGISTERS - 1))
}

/// What follows `goto`.
fn jump<'a>(cursor: &mut Cursor<'a>, a: Operand) -> Result<Instruction<'a>, Mistake> {
    let label = cursor.peek();
    if !matches!(label.piece, Piece::Word(_)) {
        return Err(label.mistake(A_LABEL));
    }
    cursor.take();
    Ok(Instruction::Jump { a, label })
}

impl Piece<'_> {
    /// The number that it is, if that is in the range.
    pub fn number_in(&self, range: &RangeInclusive<u8>) -> Option<u8> {
        match self {
            Piece::Number(digits) => digits.parse().ok().filter(|number| range.contains(number)),
            _ => None,
        }
    }
}

//! From program bytes to a text that assembles to the same bytes.

use std::fmt::{self, Display};

use program::limits::LOCATIONS;
use program::{read, Line, Operand, Program};

use crate::names::{register_name, FENCE};

/// A text for the bytes, or the number of the first check of document 01 that they fail.
pub fn disassemble(bytes: &[u8]) -> Result<String, u8> {
    Ok(Text(&read(bytes)?).to_string())
}

/// The names of the locations, by number. There is no r among them, as registers have it, and no o, l and i, which look
/// like numbers.
const LOCATION_NAMES: [&str; *LOCATIONS.end() as usize] =
    ["x", "y", "z", "w", "v", "u", "t", "s", "q", "p", "n", "m", "k", "j", "h", "g"];

/// A program, shown as a model.
struct Text<'a>(&'a Program);

impl Display for Text<'_> {
    fn fmt(&self, f: &mut fmt::Formatter) -> fmt::Result {
        let Program { threads, locations, values } = self.0;
        writeln!(f, "values {values}")?;
        writeln!(f, "locations {}", LOCATION_NAMES[..usize::from(*locations)].join(" "))?;
        threads.iter().try_for_each(|lines| thread(f, lines))
    }
}

/// A thread; a label stands before each line that a jump goes to, and after the last line if one goes there.
fn thread(f: &mut fmt::Formatter, lines: &[Line]) -> fmt::Result {
    let is_target = |number| {
        lines.iter().any(|line| matches!(line, Line::Jump { target, .. } if usize::from(*target) == number))
    };
    writeln!(f, "thread")?;
    for number in 0..=lines.len() {
        if is_target(number) {
            writeln!(f, "L{number}:")?;
        }
        if let Some(line) = lines.get(number) {
            writeln!(f, "  {}", text(line))?;
        }
    }
    Ok(())
}

fn text(line: &Line) -> String {
    match *line {
        Line::Sum { reg, a, b } => format!("{} := {} + {}", register_name(reg), value(a), value(b)),
        Line::Equal { reg, a, b } => format!("{} := {} = {}", register_name(reg), value(a), value(b)),
        Line::Less { reg, a, b } => format!("{} := {} < {}", register_name(reg), value(a), value(b)),
        Line::Jump { target, a } => format!("if {} goto L{target}", value(a)),
        Line::Write { location, a } => format!("{} := {}", name(location), value(a)),
        Line::Read { reg, location } => format!("{} := {}", register_name(reg), name(location)),
        Line::Fadd { reg, location, a } => {
            format!("{} := FADD({}, {})", register_name(reg), name(location), value(a))
        }
        Line::Cas { reg, location, a, b } => {
            format!("{} := CAS({}, {} -> {})", register_name(reg), name(location), value(a), value(b))
        }
        Line::Wait { location, a } => format!("wait({} = {})", name(location), value(a)),
        Line::Bcas { location, a, b } => format!("BCAS({}, {} -> {})", name(location), value(a), value(b)),
        Line::Fence => FENCE.into(),
    }
}

fn name(location: u8) -> &'static str {
    LOCATION_NAMES[usize::from(location)]
}

fn value(operand: Operand) -> String {
    match operand {
        Operand::Constant(value) => value.to_string(),
        Operand::Register(reg) => register_name(reg),
    }
}

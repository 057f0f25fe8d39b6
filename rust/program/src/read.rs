//! The reader: document 01, section "Checks, in this order, the first failure wins", checks 1 to 9,
//! and document 02, Point 5, check 12.

use crate::data::{Line, Operand, Program};
use crate::limits::{LINES, LOCATIONS, LOCATIONS_BESIDE_A_FENCE, REGISTERS, THREADS, VALUES};

/// The program that the bytes spell, or the number, 1 to 9 or 12, of the first check that fails.
pub fn read(bytes: &[u8]) -> Result<Program, u8> {
    let mut rest = bytes;
    // Check 1: "Does the input hold a whole PR record at its start?"
    let [t, l, k] = record(&mut rest, b"PR").ok_or(1)?;
    // Check 2: "Are T, L and K in range?"
    check(2, THREADS.contains(&t) && LOCATIONS.contains(&l) && VALUES.contains(&k))?;
    let threads = (0..t).map(|_| thread(&mut rest, l, k)).collect::<Result<_, _>>()?;
    // Check 9: "Does the input end?"
    check(9, rest.is_empty())?;
    Ok(Program { threads, locations: l, values: k })
}

/// One TH record and its n lines.
fn thread(rest: &mut &[u8], l: u8, k: u8) -> Result<Vec<Line>, u8> {
    // Check 3: "Is the record that is due there, whole and with its mark?"
    let [n] = record(rest, b"TH").ok_or(3)?;
    // Check 4: "For TH, is n at most 64?"
    check(4, LINES.contains(&n))?;
    (0..n)
        .map(|_| {
            // Check 3 again, now for a line.
            let fields = record(rest, b"IN").ok_or(3)?;
            line(fields, n, l, k)
        })
        .collect()
}

/// Checks 5, 12, 6, 7 and 8 of one line, in a thread of n lines.
fn line([op, reg, target, a, b]: [u8; 5], n: u8, l: u8, k: u8) -> Result<Line, u8> {
    // Check 5 "accepts 1 to 11".
    let uses = fields_used(op).ok_or(5)?;
    // Check 12: "12 when op 11 stands in a program whose L is 16, asked directly after check 5."
    check(12, op != FENCE || LOCATIONS_BESIDE_A_FENCE.contains(&l))?;
    // Check 6: "Is a used reg 0 to 3, and is every unused field 0?" An unused reg is 0, so below 4 as well.
    let unused_are_0 =
        (uses.reg || reg == 0) && (uses.target || target == 0) && (uses.a || a == 0) && (uses.b || b == 0);
    check(6, reg < REGISTERS && unused_are_0)?;
    // Check 7: "Is a used target in range?" An unused one is 0, which is a location. L is the header's, so that no line
    // names the location that a fence makes.
    let last = if op == JUMP { n } else { l - 1 };
    check(7, target <= last)?;
    // Check 8: "Is each used operand in range?" An unused one is 0, which is a constant.
    let a = operand(a, k).ok_or(8)?;
    let b = operand(b, k).ok_or(8)?;

    let location = target;
    Ok(match op {
        1 => Line::Sum { reg, a, b },
        2 => Line::Equal { reg, a, b },
        3 => Line::Less { reg, a, b },
        JUMP => Line::Jump { target, a },
        5 => Line::Write { location, a },
        6 => Line::Read { reg, location },
        7 => Line::Fadd { reg, location, a },
        8 => Line::Cas { reg, location, a, b },
        9 => Line::Wait { location, a },
        10 => Line::Bcas { location, a, b },
        FENCE => Line::Fence,
        _ => unreachable!("check 5 lets only 1 to 11 through"),
    })
}

/// "for op 4 a line 0 to n": the op whose target is no location.
const JUMP: u8 = 4;

/// "Op 11 uses no field and changes no register": the full fence.
const FENCE: u8 = 11;

/// Which of the fields a line uses.
struct Uses {
    reg: bool,
    target: bool,
    a: bool,
    b: bool,
}

/// The column "fields used" of the op table; nothing for a number that is no op.
fn fields_used(op: u8) -> Option<Uses> {
    let (reg, target, a, b) = match op {
        1..=3 => (true, false, true, true),
        4 | 5 => (false, true, true, false),
        6 => (true, true, false, false),
        7 => (true, true, true, false),
        8 => (true, true, true, true),
        9 => (false, true, true, false),
        10 => (false, true, true, true),
        FENCE => (false, false, false, false),
        _ => return None,
    };
    Some(Uses { reg, target, a, b })
}

/// "0 to K−1 is that constant, 128 to 131 is register 0 to 3."
fn operand(field: u8, k: u8) -> Option<Operand> {
    const FIRST: u8 = 128;
    const END: u8 = FIRST + REGISTERS;
    match field {
        FIRST..END => Some(Operand::Register(field - FIRST)),
        _ if field < k => Some(Operand::Constant(field)),
        _ => None,
    }
}

/// The fields of the record that is due, if it stands there whole and with its mark.
fn record<const N: usize>(rest: &mut &[u8], mark: &[u8; 2]) -> Option<[u8; N]> {
    let (fields, after) = rest.strip_prefix(mark)?.split_first_chunk()?;
    *rest = after;
    Some(*fields)
}

/// The number of the check, unless what it asks holds.
fn check(number: u8, holds: bool) -> Result<(), u8> {
    if holds {
        Ok(())
    } else {
        Err(number)
    }
}

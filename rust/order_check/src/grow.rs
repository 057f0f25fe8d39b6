//! Checks that allocate what they lend, in one table or in larger and larger ones.

use std::error::Error;
use std::fmt::{self, Display, Formatter};
use std::hint::black_box;
use std::iter::successors;

use answer::{steps_in, Report, Step};
use program::{place_size, read};

use crate::check_indexed;

/// The bytes of the first table, which is document 01's.
const FIRST_TABLE: usize = 49_152;

/// How many times as long the next table is.
const GROWTH: usize = 8;

/// The bytes of a slot of the index.
const SLOT: usize = size_of::<u64>();

/// The bytes of the index for each place: two slots, since it finds places up to half as many as it has slots.
const INDEX_FOR_A_PLACE: usize = 2 * SLOT;

/// A report, with what was lent for it.
#[derive(Clone, Debug, PartialEq, Eq)]
pub struct Checked {
    /// The report.
    pub report: Report,
    /// The steps of a report [`Report::NotRobust`]; else none.
    pub steps: Vec<Step>,
    /// What was lent.
    pub lent: Lent,
}

/// The memory of a check: a table, and an index of two slots for each of its places. Beside these there is a trace of
/// [`Step::BYTES`] for each place, of which only what a run needs is used.
#[derive(Clone, Copy, Debug, PartialEq, Eq)]
pub struct Lent {
    /// The bytes of the table.
    pub table: usize,
    /// The bytes of the index.
    pub index: usize,
}

impl Lent {
    /// A table of so many bytes, with its index.
    pub fn with_table(program: &[u8], table: usize) -> Lent {
        Lent { table, index: (table / place_size_of(program)).saturating_mul(INDEX_FOR_A_PLACE) }
    }

    /// The longest table that has room in so many bytes together with its index.
    pub fn within(program: &[u8], bytes: usize) -> Lent {
        let place = place_size_of(program);
        let places = bytes / (place + INDEX_FOR_A_PLACE);
        Lent { table: places * place, index: places * INDEX_FOR_A_PLACE }
    }

    /// The bytes of both.
    pub fn bytes(self) -> usize {
        self.table.saturating_add(self.index)
    }
}

/// The memory could not be had.
#[derive(Clone, Copy, Debug, PartialEq, Eq)]
pub struct NoMemory {
    /// What was asked for.
    pub asked: Lent,
}

impl Display for NoMemory {
    fn fmt(&self, to: &mut Formatter) -> fmt::Result {
        let Lent { table, index } = self.asked;
        write!(to, "no memory for a table of {table} bytes and its index of {index}")
    }
}

impl Error for NoMemory {}

/// What is lent one after the other for as long as the report is [`Report::Full`]: a table of 49,152 bytes, then each
/// eight times as long as the last, and at the end the longest that has room in `limit` bytes with its index.
pub fn tables(program: &[u8], limit: usize) -> impl Iterator<Item = Lent> + '_ {
    let last = Lent::within(program, limit);
    let up_to_last = move |table| {
        let lent = Lent::with_table(program, table);
        if lent.bytes() < last.bytes() {
            lent
        } else {
            last
        }
    };
    successors(Some(up_to_last(FIRST_TABLE)), move |lent| {
        (*lent != last).then(|| up_to_last(lent.table.saturating_mul(GROWTH)))
    })
}

/// Checks in larger and larger [tables], up to `limit` bytes, until one decides. The report is [`Report::Full`] only
/// where the last one did not suffice.
///
/// # Panics
///
/// As [`check`](crate::check()) does.
pub fn check_growing(program: &[u8], limit: usize) -> Result<Checked, NoMemory> {
    let mut checked = None;
    for lent in tables(program, limit) {
        let next = check_in(program, lent)?;
        let is_full = matches!(next.report, Report::Full { .. });
        checked = Some(next);
        if !is_full {
            break;
        }
    }
    Ok(checked.expect("there is a first table"))
}

/// Checks in memory that is allocated here.
///
/// # Panics
///
/// As [`check`](crate::check()) does.
pub fn check_in(program: &[u8], lent: Lent) -> Result<Checked, NoMemory> {
    check_with_table(program, lent).map(|(checked, _)| checked)
}

/// The same, with the table as the search left it: `docs/LAYOUT.md` has the bytes of its places.
///
/// # Panics
///
/// As [`check`](crate::check()) does.
pub fn check_with_table(program: &[u8], lent: Lent) -> Result<(Checked, Vec<u8>), NoMemory> {
    let steps = (lent.table / place_size_of(program)).saturating_mul(Step::BYTES);
    let memory = || Some((zeros(lent.table)?, zeros(steps)?, zeros(lent.index / SLOT)?));
    let (mut table, mut trace, mut index) = memory().ok_or(NoMemory { asked: lent })?;
    let report = check_indexed(program, &mut table, &mut trace, &mut index);
    let steps = match report {
        Report::NotRobust { steps, .. } => {
            steps_in(&trace[..Step::BYTES * steps]).expect("the proved library writes whole steps")
        }
        _ => Vec::new(),
    };
    Ok((Checked { report, steps, lent }, table))
}

/// So many zeros, if there is memory for them. The system hands it out only where it is used.
fn zeros<T: Copy + Default>(count: usize) -> Option<Vec<T>> {
    let mut room: Vec<T> = Vec::new();
    room.try_reserve_exact(count).ok()?;
    // So that the compiler does not leave the question out.
    drop(black_box(room));
    Some(vec![T::default(); count])
}

/// The size of a place of the program, which has one location more where it has a fence. What is no program gets the
/// size that its two bytes for threads and locations ask for: no place of it is written.
fn place_size_of(program: &[u8]) -> usize {
    let byte = |at: usize| program.get(at).map_or(0, |&byte| usize::from(byte));
    read(program).map_or_else(|_| place_size(byte(2), byte(3)), |program| program.place_size())
}

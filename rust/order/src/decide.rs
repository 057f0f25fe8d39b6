//! The verdict on a program: by the printing program, and where its table is full, by the library in larger ones.

use std::time::{Duration, Instant};

use answer::{Report, Step};
use command::tell;
use order_check::{check_with_table, tables, Checked, Lent, NoMemory};

use crate::arguments::Task;
use crate::input::Input;
use crate::memory::{available, limit, shown};
use crate::printing;
use crate::reached::{reached, Reached};

/// A report and what it took.
pub struct Decided {
    pub report: Report,
    /// The steps of NR.
    pub steps: Vec<Step>,
    /// What was lent to the search that decided.
    pub lent: Lent,
    /// From the start of the first search to the end of the last.
    pub time: Duration,
    /// For RB the lines that runs reach.
    pub reached: Option<Reached>,
}

/// From here on a search of one file among several is spoken of.
const LONG: Duration = Duration::from_millis(500);

/// The report on a model in the one table of the task, or in larger and larger ones.
pub fn decide(input: &Input, task: &Task) -> Result<Decided, String> {
    let start = Instant::now();
    let (Checked { report, steps, lent }, table) = match task.table {
        Some(table) => in_one_table(input, table)?,
        None => in_larger_tables(input, task, start)?,
    };
    if let Report::Full { count } = report {
        tell(format!("order: {}", undecided(input, count, lent)));
    }
    let reached = input.source.as_ref().and_then(|source| reached(&source.program, &report, &table));
    Ok(Decided { report, steps, lent, time: start.elapsed(), reached })
}

fn in_one_table(input: &Input, table: usize) -> Result<Searched, String> {
    let asked = Lent::with_table(&input.bytes, table);
    match available() {
        Some(available) if asked.bytes() > available => Err(format!(
            "{}: a table of {} and its index of {} are more than the {} of memory that can be had here",
            input.name,
            shown(asked.table),
            shown(asked.index),
            shown(available)
        )),
        _ => check(input, asked),
    }
}

fn in_larger_tables(input: &Input, task: &Task, start: Instant) -> Result<Searched, String> {
    let mut searched = in_first_table(input)?;
    // The first of the tables is the printing program's.
    for next in tables(&input.bytes, limit()).skip(1) {
        let (Checked { report: Report::Full { count }, lent, .. }, _) = searched else {
            break;
        };
        if available().is_some_and(|available| next.bytes() > available) {
            break;
        }
        // Of several files only those that take their time are spoken of.
        if !task.quiet && (task.files.len() == 1 || start.elapsed() >= LONG) {
            tell(format!("order: {}", progress(input, count, lent, next, start.elapsed())));
        }
        match check(input, next) {
            Ok(next) => searched = next,
            Err(message) => {
                tell(format!("order: {message}"));
                break;
            }
        }
    }
    Ok(searched)
}

/// The printing program's report, which must be the library's in a table of the same length.
fn in_first_table(input: &Input) -> Result<Searched, String> {
    let (report, steps) = printing::report(&input.bytes)?;
    let lent = Lent { table: printing::TABLE, index: 0 };
    let (expected, table) = check(input, Lent::with_table(&input.bytes, printing::TABLE))?;
    if (report, &steps) == (expected.report, &expected.steps) {
        return Ok((Checked { report, steps, lent }, table));
    }
    Err(format!(
        "{}: the printing program reports {report}, and the library {} with as long a table: they are not of one \
         build. The program is {}",
        input.name,
        expected.report,
        printing::name()
    ))
}

/// A search, and the table that it left.
type Searched = (Checked, Vec<u8>);

fn check(input: &Input, lent: Lent) -> Result<Searched, String> {
    check_with_table(&input.bytes, lent).map_err(|NoMemory { asked }| no_memory(input, asked))
}

/// What is said where the memory could not be had.
fn no_memory(input: &Input, asked: Lent) -> String {
    let [table, index] = [asked.table, asked.index].map(shown);
    format!("{}: no memory for a table of {table} and its index of {index}", input.name)
}

/// What is said between two tables.
fn progress(input: &Input, count: usize, lent: Lent, next: Lent, time: Duration) -> String {
    format!(
        "{}: no witness in {} ({}, {}); going on with {}",
        input.name,
        situations(count),
        shown(lent.bytes()),
        seconds(time),
        shown(next.bytes()),
    )
}

/// So many situations.
pub fn situations(count: usize) -> String {
    format!("{count} situation{}", if count == 1 { "" } else { "s" })
}

/// A time for people.
pub fn seconds(time: Duration) -> String {
    if time < Duration::from_secs(1) {
        format!("{} ms", time.as_millis())
    } else {
        format!("{:.1} s", time.as_secs_f64())
    }
}

/// What is said where a table did not suffice and there is no other.
fn undecided(input: &Input, count: usize, lent: Lent) -> String {
    format!(
        "{}: undecided: no witness in {}, and there are more than a table of {} holds. \
         Try a longer one (--table {}), or a smaller model: fewer threads, rounds, values, locations or \
         fences",
        input.name,
        situations(count),
        shown(lent.table),
        longer(lent.table),
    )
}

/// About four times as long, as `--table` takes it.
fn longer(table: usize) -> String {
    const UNITS: [(char, usize); 3] = [('G', 1 << 30), ('M', 1 << 20), ('K', 1 << 10)];
    let wanted = table.max(1 << 10).saturating_mul(4);
    let (letter, unit) = UNITS.into_iter().find(|&(_, unit)| wanted >= unit).unwrap_or(('K', 1 << 10));
    format!("{}{letter}", wanted.div_ceil(unit))
}

//! The proved order checker, safe to call: does a small concurrent program behave on a release/acquire machine exactly
//! as on a sequentially consistent (SC) one?
//!
//! The caller lends all the memory: a table, in which the search writes a place for each situation that it meets, a
//! trace, which gets the steps of a run that shows a program not to be robust, each with the access that it makes, and
//! for large tables an index. No memory is allocated, and nothing is kept after the call. What was lent changes no
//! answer by what it held before.
//!
//! ```
//! use order_check::{check, check_indexed, steps_in, Access, Kind, Report, Step};
//!
//! // Store buffering: x := 1; read y ‖ y := 1; read x.
//! let program = b"PR\x02\x02\x02TH\x02IN\x05\x00\x00\x01\x00IN\x06\x00\x01\x00\x00\
//!     TH\x02IN\x05\x00\x01\x01\x00IN\x06\x00\x00\x00\x00";
//! let (mut table, mut trace) = (vec![0; 49_152], vec![0; 8_192]);
//! let report = check(program, &mut table, &mut trace);
//!
//! // After thread 1 took two steps and thread 2 one, thread 2 may read the 0 that x started with.
//! let stale = Report::NotRobust { count: 7, steps: 3, thread: 2, kind: Kind::Read, location: 0, value: 0 };
//! assert_eq!(report, stale);
//!
//! // The trace has four bytes for each of these steps: thread, kind, location, value.
//! assert_eq!(trace[..12], [1, 2, 0, 1, 1, 1, 1, 0, 2, 2, 1, 1]);
//! let step = |thread, kind, location, value| {
//!     Step { thread, access: Some(Access { kind, location, value }) }
//! };
//! let steps = [step(1, Kind::Write, 0, 1), step(1, Kind::Read, 1, 0), step(2, Kind::Write, 1, 1)];
//! assert_eq!(steps_in(&trace[..3 * Step::BYTES]).as_deref(), Some(&steps[..]));
//!
//! // With a trace that is too short for them the report has exactly the bytes that they need: lend so many, call again.
//! let Report::Short { wanted } = check(program, &mut table, &mut []) else { panic!("three steps") };
//! assert_eq!(check(program, &mut table, &mut vec![0; wanted]), stale);
//!
//! // The same by an index, of two slots for each place that there will be.
//! assert_eq!(check_indexed(program, &mut table, &mut trace, &mut [0; 14]), stale);
//! ```
#![deny(unsafe_code)]

mod grow;

pub use answer::{steps_in, Access, EightNumbers, Kind, Report, Step};
pub use grow::{check_growing, check_in, check_with_table, tables, Checked, Lent, NoMemory};
pub use program::place_size;

/// Checks program bytes in the lent table.
///
/// Any bytes and any lengths will do, 0 too: what is no program is [refused](Report::Refused), and memory that does not
/// suffice is [reported](Report::Full) [as such](Report::Short). The table has as many places as fit into it whole, at
/// most 1,000,000,000; for a program of T threads and L locations a place has [`place_size`] bytes, at most 1,681. A
/// program with a fence, an op 11 in any of its lines, has one location more than its header names: the fences' own,
/// which is the last. A trace of [`Step::BYTES`] bytes for each place is never too short.
///
/// Each situation is compared with all before it, so that the time grows with the square of their number:
/// [`check_indexed`] is for large tables.
///
/// # Panics
///
/// Never with the proved library; with another one, where it answers what the proved one cannot.
pub fn check(program: &[u8], table: &mut [u8], trace: &mut [u8]) -> Report {
    report_of(numbers(program, table, trace))
}

/// The same with a lent index: the report, the table and the trace are those of [`check`] for every index, of any
/// length and whatever it held before.
///
/// Places up to half as many as the index has slots are found by it; those after them are compared one by one. With two
/// slots for each place that there will be, the time for a place hardly grows with their number, as far as their
/// fingerprints are spread. More slots than that cost next to nothing: only the first ones are used, 1,024 and then
/// four times as many whenever there are more places than half of them, as far as there are slots. A call clears and
/// fills these, and leaves those behind them as they were; where the program is [refused](Report::Refused), all of them.
///
/// # Panics
///
/// As [`check`] does.
pub fn check_indexed(program: &[u8], table: &mut [u8], trace: &mut [u8], index: &mut [u64]) -> Report {
    report_of(numbers_indexed(program, table, trace, index))
}

/// The report that the library's numbers stand for.
fn report_of(numbers: EightNumbers) -> Report {
    Report::of(numbers)
        .unwrap_or_else(|| unreachable!("order_check answered {numbers:?}, which the proved library cannot"))
}

/// [`check`] in eight numbers, for those who compare them with what the C header `order_check.h` says: verdict, number,
/// count, steps, thread, kind, location, value.
#[allow(unsafe_code)] // It calls C.
pub fn numbers(program: &[u8], table: &mut [u8], trace: &mut [u8]) -> EightNumbers {
    let mut answer = UNANSWERED;
    // SAFETY: the library reads the program, reads and writes within the lengths of table and trace, writes the eight
    // numbers of the answer, and keeps nothing. No two of the four borrows overlap.
    unsafe {
        order_check(
            program.as_ptr(),
            program.len(),
            table.as_mut_ptr(),
            table.len(),
            trace.as_mut_ptr(),
            trace.len(),
            &mut answer,
        );
    }
    answer
}

/// [`check_indexed`] in the same eight numbers.
#[allow(unsafe_code)] // As above.
pub fn numbers_indexed(
    program: &[u8],
    table: &mut [u8],
    trace: &mut [u8],
    index: &mut [u64],
) -> EightNumbers {
    let mut answer = UNANSWERED;
    // SAFETY: as above, and the index is read and written within its length too. No two of the five borrows overlap.
    unsafe {
        order_check_indexed(
            program.as_ptr(),
            program.len(),
            table.as_mut_ptr(),
            table.len(),
            trace.as_mut_ptr(),
            trace.len(),
            index.as_mut_ptr(),
            index.len(),
            &mut answer,
        );
    }
    answer
}

/// The library writes every field: these numbers are none of its answers.
const UNANSWERED: EightNumbers = [u64::MAX; 8];

extern "C" {
    fn order_check(
        program: *const u8,
        program_len: usize,
        table: *mut u8,
        table_len: usize,
        trace: *mut u8,
        trace_len: usize,
        answer: *mut EightNumbers,
    );

    fn order_check_indexed(
        program: *const u8,
        program_len: usize,
        table: *mut u8,
        table_len: usize,
        trace: *mut u8,
        trace_len: usize,
        index: *mut u64,
        index_len: usize,
        answer: *mut EightNumbers,
    );
}

#[cfg(test)]
mod tests {
    use super::{report_of, UNANSWERED};

    #[test]
    #[should_panic(expected = "which the proved library cannot")]
    fn an_answer_that_was_not_written_is_no_report() {
        report_of(UNANSWERED);
    }
}

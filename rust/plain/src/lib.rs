//! The order checker as one writes it without proofs: what the proved one's time is measured by.
//!
//! It takes the same program bytes, leaves the same bytes in table and trace, and answers with the same report. A
//! situation is never taken apart: a step copies the bytes of its place and changes them where they stand, by the update
//! rules of `crates/rules/specs/Update.antt`. Known situations are found by a hash index over the fingerprints.
#![forbid(unsafe_code)]

mod index;
mod layout;
mod print;
mod search;
mod step;
mod trace;
mod turns;
mod update;
mod witness;

use answer::{Report, Step};
use program::{read, Program};

use layout::Layout;
use search::{Outcome, Search};
use step::Stepper;
use trace::Places;
use witness::Witness;

pub use turns::{turns, Turn};

/// Checks program bytes in the lent table and trace.
pub fn check(program: &[u8], table: &mut [u8], trace: &mut [u8]) -> Report {
    match read(program) {
        Ok(program) => judge(&program, table, trace),
        Err(number) => Report::Refused { number },
    }
}

/// Searches an accepted program's situations.
fn judge(program: &Program, table: &mut [u8], trace: &mut [u8]) -> Report {
    let layout = Layout::of(program);
    let (count, outcome) = Search::new(program, &layout, table).run();
    match outcome {
        Outcome::Whole => Report::Robust { count },
        Outcome::Full => Report::Full { count },
        Outcome::Witness(Witness { thread, kind, location, value }) => {
            let places = Places { stepper: Stepper { program, layout: &layout }, table };
            let steps = places.steps_to(count);
            let wanted = Step::BYTES * steps;
            let Some(front) = trace.get_mut(..wanted) else {
                return Report::Short { wanted };
            };
            places.lay(front, count);
            Report::NotRobust { count, steps, thread: thread + 1, kind, location, value }
        }
    }
}

//! The whole checker, `liborder_check_c.a`, and how it and the plain one are compared with the second one.

mod difference;
mod expected;
mod index;
mod inputs;
mod lent;
mod place;
mod run;

pub use difference::{difference, difference_in_one_call};
pub use expected::{Expected, Lengths};
pub use index::{index_after, index_of, slots_in_use};
pub use inputs::{compare_program, index_lengths, lengths, random_program, trace_lengths, Tally};
pub use place::{decode, Written};

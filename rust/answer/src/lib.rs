//! What a checker answers to program bytes in a lent table, as data, in the eight numbers of the C header
//! `order_check.h`, in the bytes of a trace and in the lines of the printing program. No other crate that calls a
//! checker knows which number, byte or letter stands for what.
#![forbid(unsafe_code)]

mod kind;
mod numbers;
mod parse;
mod report;
mod step;
mod text;

pub use kind::Kind;
pub use numbers::EightNumbers;
pub use parse::report_in;
pub use report::Report;
pub use step::{steps_in, Access, Step};

//! The words of the documents that all crates share: programs as data and as bytes, their limits, and the sizes of their
//! places. The reader was written from the documents alone, apart from the proved one that it is compared with.
#![forbid(unsafe_code)]

mod checks;
mod data;
mod encode;
pub mod limits;
mod places;
mod read;

pub use checks::what_check_asks;
pub use data::{Line, Operand, Program};
pub use encode::{encode, fields};
pub use places::{place_size, places_available};
pub use read::read;

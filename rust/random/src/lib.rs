//! Random programs and damaged bytes for tests that compare two programs. All of it is fixed by the seed.
#![forbid(unsafe_code)]

mod damage;
mod numbers;
mod programs;

pub use damage::{damage, noise};
pub use numbers::Numbers;
pub use programs::{program, scattered, spelled_out, with_fences, Shape};

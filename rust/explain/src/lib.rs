//! Why a program is not robust: the execution graph of the reported run and of the stale access that ends it, and a
//! cycle in it, which no SC run has.
//!
//! [`Explanation::of`] takes the report of a checker; [`Explanation::words`] is for people and [`Explanation::json`] for
//! programs. The graph is that of the reported run, replayed ([`Execution::of`]); the cycle is searched in it
//! ([`Execution::cycle`]); and both are held to the definitions ([`flaw`], [`holds`], [`is_cycle`]) before anything is
//! said of them. [`Help`] has changes of the program that would break the cycle, each with the checker's verdict.
#![forbid(unsafe_code)]

mod advice;
mod change;
mod check;
mod cycle;
mod data;
mod edge;
mod execution;
mod explanation;
mod fences;
mod flaw;
mod help;
mod json;
mod replay;
mod table;
mod text;
mod trial;
mod words;

pub use change::{changed, counterpart, fence_locations, Change, Changed};
pub use check::{holds, is_cycle};
pub use edge::{Edge, Relation};
pub use execution::{Event, Execution, Taken};
pub use explanation::{Explanation, Unexplained};
pub use flaw::flaw;
pub use help::Help;
pub use json::Json;
pub use trial::{Checked, Trial, Verdict, MOST_CHECKS};

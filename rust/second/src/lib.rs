//! The order checker once more, written from documents 01 and 02 alone: their definitions on execution graphs, and no
//! rules that would carry a situation from one state to the next. It depends on programs and their bytes alone, the
//! crate `program`, so that a slip in the proved checker or in the tools around it is not repeated here.
//!
//! A state has the thread states and the graph of one SC run. Happens-before and SC order are closures computed on
//! that graph; the situation of a state and its witnesses are read off them. What a step shows is read off the event
//! that it adds to the graph.
#![forbid(unsafe_code)]

mod events;
mod graph;
mod neighbours;
mod order;
mod report;
mod search;
mod situation;
mod state;
mod step;
mod thread;
mod witness;

pub use graph::{Event, Graph};
pub use report::{check, Answer, Report, PRINTING};
pub use search::{Ending, Place, Search};
pub use situation::{LocationPart, Set, Situation, ThreadPart};
pub use state::State;
pub use step::{Access, Step};
pub use thread::{Action, Kind, Thread};
pub use witness::{witness, Witness};

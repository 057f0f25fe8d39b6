//! Families of robust programs that grow, and the time that the proved checker and a plain one take on them.
#![deny(unsafe_code)]

pub mod checkers;
pub mod families;
pub mod index;
mod lent;
pub mod measure;
#[allow(unsafe_code)] // It runs a call on a stack of its own.
mod stack;
pub mod successors;
pub mod summary;
pub mod table;
mod text;
pub mod usage;

//! Compares the proved reader and the proved checker with the second program.
#![deny(unsafe_code)]

pub mod checker;
pub mod printing;
pub mod reader;

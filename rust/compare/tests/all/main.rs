//! All tests of this crate in one program, so that the long ones run side by side.
#![forbid(unsafe_code)]

mod call_again;
mod checker_cases;
mod checker_fences;
mod checker_growing;
mod checker_high;
mod checker_index;
mod checker_models;
mod checker_place;
mod checker_printed;
mod checker_random;
mod command;
mod end_of_input;
mod failures;
mod reader_c;
mod readers;

#[test]
fn every_file_here_is_named_above() {
    let here = std::path::Path::new(env!("CARGO_MANIFEST_DIR")).join("tests/all");
    run::every_file_is_named(&here, include_str!("main.rs"));
}

//! All tests of this crate in one program. They explain the models and random programs, with the plain checker.
#![forbid(unsafe_code)]

mod changes;
mod cycles;
mod data;
mod edits;
mod flaws;
mod followed;
mod helps;
mod long;
mod reader;
mod replay;
mod reported;
mod texts;

#[test]
fn every_file_here_is_named_above() {
    let here = std::path::Path::new(env!("CARGO_MANIFEST_DIR")).join("tests/all");
    run::every_file_is_named(&here, include_str!("main.rs"));
}

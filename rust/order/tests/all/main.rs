//! The command `order`, run as users run it.
#![forbid(unsafe_code)]

mod fences;
mod files;
mod locations;
mod output;
mod printing;
mod readme;
mod reasons;
mod script;
mod tables;
mod user;

#[test]
fn every_file_here_is_named_above() {
    let here = std::path::Path::new(env!("CARGO_MANIFEST_DIR")).join("tests/all");
    run::every_file_is_named(&here, include_str!("main.rs"));
}

//! All tests of this crate but that in a browser, in one program. They look at the pages of all models, of random
//! programs and of a crowded one, with the plain checker's reports.
#![forbid(unsafe_code)]

mod colours;
mod drawing;
mod edges;
mod escaping;
mod geometry;
mod graphviz;
mod own;
mod parts;
mod picture;
mod readme;
mod reported;
mod skip;
mod xml;

#[test]
fn every_file_here_is_named_above() {
    let here = std::path::Path::new(env!("CARGO_MANIFEST_DIR")).join("tests/all");
    run::every_file_is_named(&here, include_str!("main.rs"));
}

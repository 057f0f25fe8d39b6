//! Tests that need a program which may not be there.

use std::io::Write;

/// Says that a test is skipped, past the capture of the tests' output.
pub fn skipped(why: &str) {
    // On a line of its own, whatever stands there already.
    std::io::stderr().write_all(format!("\n{why}\n").as_bytes()).unwrap();
}

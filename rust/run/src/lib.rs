//! Runs a command as a user runs it, for tests.
#![forbid(unsafe_code)]

use std::io::Write;
use std::path::Path;
use std::process::{Command, Output, Stdio};

/// Runs the command with these arguments and this standard input, in the directory `at`.
///
/// # Panics
///
/// Where the command cannot be run.
pub fn run_at(at: &Path, command: &Path, arguments: &[&str], input: &[u8]) -> Output {
    let mut child = Command::new(command)
        .args(arguments)
        .current_dir(at)
        .stdin(Stdio::piped())
        .stdout(Stdio::piped())
        .stderr(Stdio::piped())
        .spawn()
        .unwrap_or_else(|error| panic!("{}: {error}", command.display()));
    // A command that does not read all of its input may be gone before it is written.
    let _ = child.stdin.take().unwrap().write_all(input);
    child.wait_with_output().unwrap()
}

/// The same where the tests run.
pub fn run(command: &str, arguments: &[&str], input: &[u8]) -> Output {
    run_at(Path::new("."), Path::new(command), arguments, input)
}

/// Fails for a file of the tests that no `mod` of their main file names: it would not be compiled, and its tests be lost
/// unseen.
///
/// # Panics
///
/// There.
pub fn every_file_is_named(tests: &Path, main: &str) {
    for file in std::fs::read_dir(tests).unwrap() {
        let path = file.unwrap().path();
        let name = path.file_stem().unwrap().to_string_lossy();
        let is_named = main.contains(&format!("\nmod {name};\n"));
        assert!(name == "main" || is_named, "{} is not named in main.rs", path.display());
    }
}

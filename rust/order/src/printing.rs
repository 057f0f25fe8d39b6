//! The printing program: document 01's command, which reads program bytes and writes the report.

use std::env;
use std::io::{self, Write};
use std::path::PathBuf;
use std::process::{Command, Stdio};
use std::thread;

use answer::{report_in, Report, Step};

/// The bytes of its table.
pub const TABLE: usize = 49_152;

/// What it reports of the program bytes, or why there is no report.
pub fn report(program: &[u8]) -> Result<(Report, Vec<Step>), String> {
    let output = run(&path(), program).map_err(|error| format!("{}: {error}", name()))?;
    // Its status is 0 for every report, so only its text tells which.
    std::str::from_utf8(&output)
        .ok()
        .and_then(report_in)
        .ok_or_else(|| format!("{}: it wrote no whole report", name()))
}

/// What messages call it. Who forgot the variable learns of it.
pub fn name() -> String {
    let origin = if named().is_some() { " (named by ORDER_CHECK)" } else { "" };
    format!("{}{origin}", path().display())
}

/// The program that `ORDER_CHECK` names, or the one beside this command.
fn path() -> PathBuf {
    named().unwrap_or_else(|| env::current_exe().unwrap_or_default().with_file_name("order_check"))
}

fn named() -> Option<PathBuf> {
    env::var_os("ORDER_CHECK").filter(|name| !name.is_empty()).map(PathBuf::from)
}

fn run(path: &PathBuf, input: &[u8]) -> io::Result<Vec<u8>> {
    let mut child = Command::new(path).stdin(Stdio::piped()).stdout(Stdio::piped()).spawn()?;
    let mut stdin = child.stdin.take().expect("it is piped");
    // Beside each other, in case it writes before it has read all. What it does not read shows in its report.
    let output = thread::scope(|scope| {
        let writer = thread::Builder::new().spawn_scoped(scope, move || stdin.write_all(input));
        let output = child.wait_with_output();
        writer.and(output)
    })?;
    if output.status.success() {
        Ok(output.stdout)
    } else {
        Err(io::Error::other(format!("it ended with {}", output.status)))
    }
}

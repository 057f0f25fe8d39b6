//! The command `second`: what document 01's printing program prints for the program bytes on standard input.
#![forbid(unsafe_code)]

use std::io::{self, ErrorKind, Read, Write};
use std::process::ExitCode;

use second::{check, PRINTING};

const USAGE: &str =
    "usage: second [TABLE [TRACE]] < PROGRAM   (lengths in bytes, 49152 and 8192 if not given)";

fn main() -> ExitCode {
    let done = match std::env::args().nth(1).as_deref() {
        Some("--version") => write(&format!("second {}\n", env!("CARGO_PKG_VERSION"))),
        Some("--help" | "-h") => write(&format!("{USAGE}\n")),
        _ => match lengths() {
            Some([table, trace]) => run(table, trace),
            None => {
                eprintln!("{USAGE}");
                return ExitCode::from(2);
            }
        },
    };
    match done {
        Ok(()) => ExitCode::SUCCESS,
        Err(error) => {
            // A reader that went away does not want to know.
            if error.kind() != ErrorKind::BrokenPipe {
                eprintln!("second: {error}");
            }
            ExitCode::FAILURE
        }
    }
}

fn run(table: usize, trace: usize) -> io::Result<()> {
    let mut bytes = Vec::new();
    io::stdin().read_to_end(&mut bytes)?;
    write(&check(&bytes, table, trace).to_string())
}

fn write(text: &str) -> io::Result<()> {
    io::stdout().write_all(text.as_bytes()).and_then(|()| io::stdout().flush())
}

/// The lengths that the command line gives, in place of those of document 01.
fn lengths() -> Option<[usize; 2]> {
    let mut lengths = PRINTING;
    for (place, argument) in std::env::args().skip(1).enumerate() {
        *lengths.get_mut(place)? = argument.parse().ok()?;
    }
    Some(lengths)
}

//! What the commands share: arguments, output and how they end.
#![forbid(unsafe_code)]

use std::ffi::OsString;
use std::fmt::Display;
use std::fs::{metadata, File, Metadata};
use std::io::{self, ErrorKind, Read, Write};
use std::os::fd::AsFd;
use std::os::unix::fs::MetadataExt;
use std::process::{exit, ExitCode};

use program::limits::LONGEST_INPUT;

/// The status of a failed read or write, or of an input with a mistake.
pub const FAILED: u8 = 1;

/// The status of a command line that says nothing known.
pub const USAGE: u8 = 2;

/// The arguments after the command's name, or what is wrong with the first that is no text.
pub fn arguments() -> Result<Vec<String>, String> {
    std::env::args_os().skip(1).map(|argument| argument.into_string().map_err(no_text)).collect()
}

/// What is wrong with an argument that is no text. The name is meant, and not what the file holds.
fn no_text(argument: OsString) -> String {
    let shown = name_of(&argument.to_string_lossy());
    let what = if shown.starts_with('-') { "argument" } else { "file name" };
    format!("the {what} '{shown}' is not valid UTF-8")
}

/// The arguments of a command that knows `--help`, `-h` and `--version` beside them; the status to end with where one of
/// these was given and answered, or an argument is no text.
pub fn asked(command: &str, usage: &str) -> Result<Vec<String>, ExitCode> {
    let arguments = arguments().map_err(|message| {
        tell(format!("{command}: {message}"));
        ExitCode::from(USAGE)
    })?;
    let is_given = |option| arguments.iter().any(|argument| argument == option);
    if is_given("--help") || is_given("-h") {
        print(command, usage);
    } else if is_given("--version") {
        print(command, version(command).trim_end());
    } else {
        return Ok(arguments);
    }
    Err(ExitCode::SUCCESS)
}

/// The line that `--version` prints. The middle number is that of the C header `order_check.h`.
pub fn version(command: &str) -> String {
    format!("{command} {}\n", env!("CARGO_PKG_VERSION"))
}

/// What the name `-` stands for.
const STANDARD_INPUT: &str = "standard input";

/// What messages call a file. A line break in a name would make two lines of one.
pub fn name_of(file: &str) -> String {
    let shown = |character: char| match character.is_control() {
        true => character.escape_default().to_string(),
        false => character.into(),
    };
    if file == "-" {
        STANDARD_INPUT.into()
    } else {
        file.chars().map(shown).collect()
    }
}

/// What the file holds, or standard input for `-`; or why that can't be told. An input that is too long is not read to
/// its end.
pub fn read(file: &str) -> Result<Vec<u8>, String> {
    let bytes = match file {
        "-" => up_to_longest(io::stdin().lock()),
        _ => File::open(file).and_then(up_to_longest),
    };
    bytes.map_err(|error| format!("{}: {error}", name_of(file)))
}

fn up_to_longest(from: impl Read) -> io::Result<Vec<u8>> {
    let mut bytes = Vec::new();
    from.take(LONGEST_INPUT as u64 + 1).read_to_end(&mut bytes)?;
    if bytes.len() > LONGEST_INPUT {
        return Err(io::Error::other("longer than 1 MiB, which no model is"));
    }
    Ok(bytes)
}

/// Whether two names are of one file that is there, also by a link or by another path to it: to write the one is to
/// lose the other. A device keeps nothing that could be lost, and is none.
pub fn is_same_file(one: &str, other: &str) -> bool {
    let kept = |file: &str| metadata(file).ok().filter(Metadata::is_file);
    let [one, other] = [one, other].map(|file| kept(file).map(|found| (found.dev(), found.ino())));
    one.is_some() && one == other
}

/// Whether a file is there that is not empty and not of the kind that is to be written, by its first bytes: it would be
/// lost.
pub fn holds_other(file: &str, is_kind: impl Fn(&[u8]) -> bool) -> bool {
    const START: u64 = 1_000;
    let mut start = Vec::new();
    // A pipe is not opened: that would wait for its writer.
    let is_file = metadata(file).is_ok_and(|found| found.is_file());
    let mut read = || File::open(file)?.take(START).read_to_end(&mut start);
    is_file && matches!(read(), Ok(1..)) && !is_kind(&start)
}

/// Why standard output was not written.
#[derive(Debug)]
pub enum Unwritten {
    /// Its reader went away, as `head` does: nobody is left who wants to know.
    ReaderGone,
    /// Anything else, in words.
    Failed(String),
}

/// Writes all of it to standard output.
pub fn write_out(bytes: &[u8]) -> Result<(), Unwritten> {
    // Not by `Stdout`: for that a file which can't be written is as good as one that is.
    let output = io::stdout().as_fd().try_clone_to_owned().map(File::from);
    output.and_then(|mut output| output.write_all(bytes)).map_err(|error| match error.kind() {
        ErrorKind::BrokenPipe => Unwritten::ReaderGone,
        _ => Unwritten::Failed(format!("standard output: {error}")),
    })
}

/// Writes a message to standard error. Where that can't be written, there is nobody to tell.
pub fn tell(message: impl Display) {
    let _ = writeln!(io::stderr().lock(), "{message}");
}

/// Writes a line to standard output; where it can't be written, the command ends with a message and [`FAILED`].
pub fn print(command: &str, line: impl Display) {
    if let Err(unwritten) = write_out(format!("{line}\n").as_bytes()) {
        if let Unwritten::Failed(message) = unwritten {
            tell(format!("{command}: {message}"));
        }
        exit(FAILED.into());
    }
}

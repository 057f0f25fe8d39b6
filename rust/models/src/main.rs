//! The command `order_asm`: a model to program bytes, and back.
#![forbid(unsafe_code)]

use std::fs;
use std::process::ExitCode;

use command::{asked, holds_other, is_same_file, name_of, read, tell, write_out, Unwritten, FAILED, USAGE};
use models::{assemble, disassemble};
use program::what_check_asks;

const HELP: &str = "\
order_asm: the text form of a program to its bytes

    order_asm [FILE] [-o OUT]          assemble: text to bytes
    order_asm --dis [FILE] [-o OUT]    disassemble: bytes to text
    order_asm --help                   this text
    order_asm --version                the version

Without FILE, or with -, it reads standard input. Without -o it writes standard output.
OUT must not be FILE, and bytes replace no text that is there.
Where the input has a mistake, a message goes to standard error, nothing else is written,
and the exit status is 1. It is 2 where the command line has one. An input of more than
1 MiB is refused.

A text is in UTF-8, and its lines end with LF, or with CR and LF. Other control characters
than tab are mistakes, and so are characters that editors hide, also in comments.

A model:

    # store buffering
    values 2
    locations x y
    thread
      x := 1
      r0 := y
    thread
      y := 1
      r0 := x

The lines, for registers r0 to r3 and locations x: each 1 and 2 may be a value or a register.

    r0 := 1 + 2    r0 := 1 = 2    r0 := 1 < 2    r0 := 1 (short for 1 + 0)
    again:         if 1 goto again               goto again (short for if 1 goto again)
    x := 1         r0 := x
    r0 := FADD(x, 1)              r0 := CAS(x, 1 -> 2)
    wait(x = 1)                   BCAS(x, 1 -> 2)               fence

'thread * 3' is three equal threads. Names for values and registers stand before or after
the locations, or directly after 'thread' and then hold there:

    constants empty = 0 full = 1
    registers mine = r0 other = r1
";

/// What the command line asks for.
struct Task {
    disassemble: bool,
    input: String,
    output: Option<String>,
}

/// `-` is standard input.
const STANDARD_INPUT: &str = "-";

fn main() -> ExitCode {
    match asked("order_asm", HELP.trim_end()) {
        Ok(arguments) => act(arguments),
        Err(status) => status,
    }
}

fn act(arguments: Vec<String>) -> ExitCode {
    let (message, status) = match task(arguments) {
        Err(message) => (Some(format!("order_asm: {message}; see order_asm --help")), USAGE),
        Ok(task) => match translated(&task).map(|output| written(&task, &output)) {
            Ok(Ok(())) => return ExitCode::SUCCESS,
            Ok(Err(Unwritten::ReaderGone)) => (None, FAILED),
            Ok(Err(Unwritten::Failed(message))) | Err(message) => (Some(message), FAILED),
        },
    };
    message.iter().for_each(tell);
    ExitCode::from(status)
}

fn task(arguments: Vec<String>) -> Result<Task, String> {
    let (mut disassemble, mut input, mut output) = (false, None, None);
    let mut arguments = arguments.into_iter();
    while let Some(argument) = arguments.next() {
        if argument == "--dis" {
            disassemble = true;
        } else if argument == "-o" {
            let name = arguments.next().ok_or("expected a file name after -o")?;
            if output.replace(name).is_some() {
                return Err("expected one -o".into());
            }
        } else if argument.starts_with('-') && argument != STANDARD_INPUT {
            return Err(format!("expected --dis, -o or a file name, found {argument}"));
        } else if let Some(first) = &input {
            return Err(format!("expected one file name, found {argument} after {first}"));
        } else {
            input = Some(argument);
        }
    }
    let input = input.unwrap_or(STANDARD_INPUT.into());
    match &output {
        Some(file) if input != STANDARD_INPUT && is_same_file(&input, file) => {
            Err(format!("expected another file than the input after -o, found {}", name_of(file)))
        }
        Some(file) if !disassemble && holds_other(file, is_program) => {
            Err(format!("{} holds no program bytes, and would be written over", name_of(file)))
        }
        _ => Ok(Task { disassemble, input, output }),
    }
}

/// Whether a file that starts so may be a program: after its mark comes the number of its threads, which no text has.
fn is_program(start: &[u8]) -> bool {
    start.strip_prefix(b"PR").and_then(|rest| rest.first()).is_some_and(u8::is_ascii_control)
}

/// The output for all of the input: it is written only after this, so that a mistake leaves none.
fn translated(task: &Task) -> Result<Vec<u8>, String> {
    let name = name_of(&task.input);
    let input = read(&task.input)?;
    if task.disassemble {
        Ok(disassemble(&input).map_err(|number| refused(&name, number))?.into_bytes())
    } else {
        assemble(&input).map_err(|mistake| format!("{name}:{mistake}"))
    }
}

/// What is said of bytes that fail a check.
fn refused(name: &str, number: u8) -> String {
    let asked = what_check_asks(number);
    format!("{name}: no program: check {number} failed, {asked}; docs/FORMAT.md has the bytes of a program")
}

/// Writes the file, or standard output where none is named.
fn written(task: &Task, output: &[u8]) -> Result<(), Unwritten> {
    match &task.output {
        Some(file) => fs::write(file, output).map_err(|error| Unwritten::Failed(format!("{file}: {error}"))),
        None => write_out(output),
    }
}

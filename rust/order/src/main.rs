//! The command `order`: the verdict on models, with its reasons.
#![forbid(unsafe_code)]

mod arguments;
mod data;
mod decide;
mod draw;
mod input;
mod memory;
mod printing;
mod reached;
mod reason;
mod show;
mod status;
mod staying;
mod words;

use std::process::ExitCode;

use arguments::{parse, Asked, Show, Task};
use command::{arguments, tell, version, write_out, Unwritten, USAGE};
use status::Status;

const HELP: &str = include_str!("help.txt");

fn main() -> ExitCode {
    let status = match arguments().and_then(parse) {
        Err(message) => {
            tell(format!("order: {message}; see order --help"));
            return ExitCode::from(USAGE);
        }
        Ok(Asked::Help) => written(HELP).map(|()| Status::Good),
        Ok(Asked::Version) => written(&version("order")).map(|()| Status::Good),
        Ok(Asked::Task(task)) => run(&task),
    };
    ExitCode::from(status.unwrap_or_else(failed).number())
}

/// Checks one file after the other, and shows each as soon as it is decided.
fn run(task: &Task) -> Result<Status, Unwritten> {
    let mut status = Status::Good;
    for file in &task.files {
        let shown = input::input(file)
            .and_then(|input| show::shown(&input, task).map_err(|message| format!("order: {message}")));
        status = status.min(match shown {
            Ok((text, status)) => written(&text).map(|()| status)?,
            Err(message) => {
                if task.show == Show::Json {
                    let message = message.strip_prefix("order: ").unwrap_or(&message);
                    written(&format!("{}\n", data::error(file, message)))?;
                }
                tell(message);
                Status::Failed
            }
        });
    }
    Ok(status)
}

fn written(text: &str) -> Result<(), Unwritten> {
    write_out(text.as_bytes())
}

/// Says what went wrong, unless there is nobody left to read it.
fn failed(unwritten: Unwritten) -> Status {
    if let Unwritten::Failed(message) = unwritten {
        tell(format!("order: {message}"));
    }
    Status::Failed
}

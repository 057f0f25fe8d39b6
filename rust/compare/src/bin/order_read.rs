//! `order_read [FILE]`: what the proved reader says of program bytes, of a file or of standard input.
#![forbid(unsafe_code)]

use std::process::ExitCode;

use command::{asked, print, read, tell, FAILED};

const USAGE: &str = "usage: order_read [FILE]   (says whether the reader accepts program bytes)";

const NAME: &str = "order_read";

fn main() -> ExitCode {
    match asked(NAME, USAGE) {
        Ok(arguments) => run(&arguments),
        Err(status) => status,
    }
}

fn run(arguments: &[String]) -> ExitCode {
    let file = match arguments {
        [] => "-",
        [file] => file,
        _ => {
            tell(USAGE);
            return ExitCode::from(command::USAGE);
        }
    };
    match read(file).map(|bytes| compare::reader::verdict(&bytes)) {
        Err(message) => tell(format!("{NAME}: {message}")),
        Ok(Err(number)) => print(NAME, format!("NO {number}")),
        Ok(Ok([threads, locations, values])) => {
            print(NAME, format!("accepted: threads {threads}, locations {locations}, values {values}"));
            return ExitCode::SUCCESS;
        }
    }
    ExitCode::from(FAILED)
}

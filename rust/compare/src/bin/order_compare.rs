//! `order_compare [PROGRAMS [SEED]]`: compares the two checkers on random programs, 100,000 if not said otherwise.
#![forbid(unsafe_code)]

use std::process::ExitCode;
use std::time::Instant;

use command::{asked, print, tell};
use compare::checker::{compare_program, random_program, Tally};
use program::encode;
use random::Numbers;

const USAGE: &str = "usage: order_compare [PROGRAMS [SEED]]   (100000 programs of seed 1 if not given)";

const NAME: &str = "order_compare";

fn main() -> ExitCode {
    match asked(NAME, USAGE) {
        Ok(arguments) => run(&arguments),
        Err(status) => status,
    }
}

fn run(arguments: &[String]) -> ExitCode {
    let mut settings = [100_000, 1];
    for (place, argument) in arguments.iter().enumerate() {
        match (settings.get_mut(place), argument.parse()) {
            (Some(setting), Ok(number)) => *setting = number,
            _ => {
                tell(USAGE);
                return ExitCode::from(command::USAGE);
            }
        }
    }
    let [programs, seed] = settings;
    let mut numbers = Numbers::new(seed);
    let mut tally = Tally::default();
    let start = Instant::now();
    for number in 1..=programs {
        let bytes = encode(&random_program(&mut numbers));
        if let Err(difference) = compare_program(&bytes, &mut numbers, &mut tally) {
            print(NAME, format!("program {number} of seed {seed}: {difference}"));
            return ExitCode::FAILURE;
        }
        if number % 10_000 == 0 {
            tell(format!("{number} programs, {} s", start.elapsed().as_secs()));
        }
    }
    print(NAME, format!("no difference in {} s: {tally}", start.elapsed().as_secs()));
    ExitCode::SUCCESS
}

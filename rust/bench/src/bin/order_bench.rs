//! `order_bench [--index SLOTS] [MOST [FAMILY..]]`: measures the proved checker and the plain one on families of robust
//! programs, or the proved one beside an index of any length.
#![forbid(unsafe_code)]

use std::num::{IntErrorKind, ParseIntError};
use std::process::ExitCode;

use bench::families::{Family, Size, ALL};
use bench::index::{self, beside, Beside};
use bench::measure::{measure, stack, Measured};
use bench::summary::summary;
use bench::table::{line, FOOTER, HEADER};
use bench::usage::usage;
use command::{asked, print, tell};

const NAME: &str = "order_bench";

const INDEX: &str = "--index";

fn main() -> ExitCode {
    let usage = usage();
    let arguments = match asked(NAME, &usage) {
        Ok(arguments) => arguments,
        Err(status) => return status,
    };
    let (message, status) = match Asked::of(&arguments) {
        Ok(asked) => match asked.show() {
            Ok(()) => return ExitCode::SUCCESS,
            Err(message) => (message, command::FAILED),
        },
        Err(message) => (format!("{message}\n{usage}"), command::USAGE),
    };
    tell(format!("{NAME}: {message}"));
    ExitCode::from(status)
}

/// A family by its name, with what was measured of its programs.
type Named<M> = (&'static str, Vec<M>);

/// What the arguments ask for.
struct Asked {
    slots: Option<usize>,
    most: usize,
    families: Vec<&'static Family>,
}

impl Asked {
    /// What is wrong with them, where they ask for something that is not known.
    fn of(arguments: &[String]) -> Result<Asked, String> {
        if arguments.iter().skip(1).any(|argument| argument == INDEX) {
            return Err(format!("{INDEX} comes first, and once"));
        }
        let (slots, rest) = match arguments {
            [option, rest @ ..] if option == INDEX => {
                let what = "--index takes a number of slots";
                let (slots, rest) = rest.split_first().ok_or(what)?;
                (Some(number(slots, what)?), rest)
            }
            _ => (None, arguments),
        };
        let (most, names) = match rest {
            [most, names @ ..] => (number(most, "MOST is a number of situations")?, names),
            [] => (usize::MAX, rest),
        };
        Ok(Asked { slots, most, families: families(names)? })
    }

    /// Prints what they ask for, or says why that can't be done.
    fn show(&self) -> Result<(), String> {
        if self.families.iter().all(|family| self.sizes(family).next().is_none()) {
            print(NAME, "no program has so few situations");
            return Ok(());
        }
        match self.slots {
            Some(slots) => {
                let index = index::of_length(slots).ok_or("no memory for an index of so many slots")?;
                self.show_index(index);
            }
            None => self.show_both(),
        }
        Ok(())
    }

    /// The two checkers.
    fn show_both(&self) {
        print(NAME, HEADER);
        let measured = self.each(|family, size, smaller: Option<&Measured>| {
            let measured = measure(family, size);
            print(NAME, line(family.name, &measured, smaller));
            measured
        });
        print(NAME, FOOTER);
        self.sum_up(measured, summary);
        let stack = self.families.iter().map(|family| stack(family)).max().unwrap_or_default();
        print(NAME, format!("stack of the proved checker: at most {stack} bytes, with that of the call"));
    }

    /// The proved checker beside an index.
    fn show_index(&self, mut index: Vec<u64>) {
        let slots = index.len();
        index::header(slots).iter().for_each(|line| print(NAME, line));
        let measured = self.each(|family, size, _: Option<&Beside>| {
            let measured = beside(family, size, &mut index);
            print(NAME, index::line(family.name, slots, &measured));
            measured
        });
        self.sum_up(measured, |families| index::summary(families, slots));
    }

    /// Prints the lines below a table: first for families without fences, then for those with.
    fn sum_up<M>(&self, measured: Vec<Named<M>>, lines: impl Fn(&[Named<M>]) -> Vec<String>) {
        let (with, without): (Vec<_>, Vec<_>) =
            measured.into_iter().zip(&self.families).partition(|(_, family)| family.has_fences());
        let lines = |families: Vec<(Named<M>, _)>| {
            let families: Vec<Named<M>> = families.into_iter().map(|(measured, _)| measured).collect();
            lines(&families)
        };
        lines(without).iter().for_each(|line| print(NAME, line));
        lines(with).iter().for_each(|line| print(NAME, format!("with fences, {line}")));
    }

    /// What is measured of each program, which gets that of the next smaller one of its family.
    fn each<M>(&self, mut measure: impl FnMut(&Family, &Size, Option<&M>) -> M) -> Vec<Named<M>> {
        let of_family = |family: &&'static Family| {
            let mut all: Vec<M> = Vec::new();
            for size in self.sizes(family) {
                all.push(measure(family, size, all.last()));
            }
            (family.name, all)
        };
        self.families.iter().map(of_family).collect()
    }

    /// The programs of a family that are asked for.
    fn sizes(&self, family: &Family) -> impl Iterator<Item = &'static Size> {
        let most = self.most;
        family.sizes.iter().filter(move |size| size.situations <= most)
    }
}

/// The families whose names start with one of these, which all have to be known; all where there are none.
fn families(names: &[String]) -> Result<Vec<&'static Family>, String> {
    let starts = |family: &Family, name: &String| family.name.starts_with(name);
    match names.iter().find(|name| !ALL.iter().any(|family| starts(family, name))) {
        Some(unknown) => Err(format!("no family starts with '{}'", unknown.escape_debug())),
        None => {
            let is_chosen =
                |family: &&Family| names.is_empty() || names.iter().any(|name| starts(family, name));
            Ok(ALL.iter().filter(is_chosen).collect())
        }
    }
}

/// The number that an argument is. One that is too large is as good as the largest.
fn number(argument: &str, what: &str) -> Result<usize, String> {
    argument.parse().or_else(|error: ParseIntError| match error.kind() {
        IntErrorKind::PosOverflow => Ok(usize::MAX),
        _ => Err(format!("{what}, not '{}'", argument.escape_debug())),
    })
}

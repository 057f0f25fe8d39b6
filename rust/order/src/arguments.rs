//! What the command line asks for.

use command::holds_other;
use page::{is_graph, is_page};

/// What is asked for.
pub enum Asked {
    Help,
    Version,
    Task(Task),
}

/// The files to check, and what to show of each.
#[derive(Default)]
pub struct Task {
    pub files: Vec<String>,
    /// The bytes of the one table to check in; none to go on with larger ones until one decides.
    pub table: Option<usize>,
    pub show: Show,
    pub verbose: bool,
    /// Whether nothing is said between tables.
    pub quiet: bool,
    /// The file that gets the page.
    pub html: Option<String>,
    /// The file that gets the graph for graphviz.
    pub dot: Option<String>,
}

/// What standard output gets.
#[derive(Default, PartialEq, Eq)]
pub enum Show {
    /// The report; of several files each one's name and the verdict line.
    #[default]
    Report,
    /// The verdict line and what it means.
    Words,
    /// All of it as data.
    Json,
    /// Whether the verdict is the one that the model expects.
    Expected,
}

/// The task of the arguments, or what is wrong with them.
pub fn parse(arguments: Vec<String>) -> Result<Asked, String> {
    // With a file beside them they would end with 0, which says RB.
    match arguments.iter().map(String::as_str).collect::<Vec<_>>()[..] {
        ["--help" | "-h"] => return Ok(Asked::Help),
        ["--version"] => return Ok(Asked::Version),
        _ => {}
    }
    let mut task = Task::default();
    let mut arguments = arguments.into_iter();
    while let Some(argument) = arguments.next() {
        match argument.as_str() {
            "--explain" => task.show(Show::Words)?,
            "--json" => task.show(Show::Json)?,
            "--expect" => task.show(Show::Expected)?,
            "-v" | "--verbose" => task.verbose = true,
            "-q" | "--quiet" => task.quiet = true,
            "--table" => {
                once(&mut task.table, &argument, size(&value(&argument, "a size", &mut arguments)?)?)?
            }
            "--html" => {
                once(&mut task.html, &argument, value(&argument, "a file to write", &mut arguments)?)?
            }
            "--dot" => once(&mut task.dot, &argument, value(&argument, "a file to write", &mut arguments)?)?,
            "--" => task.files.extend(arguments.by_ref()),
            "-" => task.files.push(argument),
            "--help" | "-h" | "--version" => return Err(format!("{argument} stands alone")),
            option if option.starts_with('-') => match option.strip_prefix("--table=") {
                Some(bytes) => once(&mut task.table, "--table", size(bytes)?)?,
                None => return Err(format!("{option} is no option")),
            },
            _ => task.files.push(argument),
        }
    }
    task.fits().map(|()| Asked::Task(task))
}

/// What follows an option. Another option does not.
fn value(option: &str, what: &str, arguments: &mut impl Iterator<Item = String>) -> Result<String, String> {
    match arguments.next() {
        Some(value) if value == "-" || !value.starts_with('-') => Ok(value),
        Some(value) => Err(format!("expected {what} after {option}, found {value}")),
        None => Err(format!("expected {what} after {option}")),
    }
}

/// An option that is given once.
fn once<T>(place: &mut Option<T>, option: &str, value: T) -> Result<(), String> {
    match place.replace(value) {
        None => Ok(()),
        Some(_) => Err(format!("expected one {option}")),
    }
}

impl Task {
    /// Whether it asks for a page or a graph.
    pub fn draws(&self) -> bool {
        self.html.is_some() || self.dot.is_some()
    }

    /// Whether its parts go together.
    fn fits(&self) -> Result<(), String> {
        let instead = [&self.html, &self.dot].into_iter().flatten().filter(|file| *file == "-").count();
        if self.files.is_empty() {
            Err("expected a file, or - for standard input".into())
        } else if instead > 1 || instead == 1 && self.show != Show::Report {
            Err("only one thing can take the report's place".into())
        } else if self.files.iter().filter(|file| *file == "-").count() > 1 {
            Err("standard input can be read once".into())
        } else if self.draws() && self.files.len() > 1 {
            Err("--html and --dot are for one model".into())
        } else if self.draws() && self.show == Show::Expected {
            Err("--expect goes with neither --html nor --dot".into())
        } else if self.draws() && self.html == self.dot {
            Err("--html and --dot need a file each".into())
        } else {
            let html = self.html.iter().try_for_each(|file| may_write(file, "page", is_page));
            html.and(self.dot.iter().try_for_each(|file| may_write(file, "graph", is_graph)))
        }
    }

    fn show(&mut self, show: Show) -> Result<(), String> {
        if self.show != Show::Report && self.show != show {
            return Err("--explain, --json and --expect exclude each other".into());
        }
        self.show = show;
        Ok(())
    }
}

/// Whether a file may get what is drawn: a forgotten name must cost no model, nor what others wrote.
fn may_write(file: &str, what: &str, is_own: fn(&[u8]) -> bool) -> Result<(), String> {
    if file.ends_with(".order") {
        Err(format!("{file} is the name of a model, and not of a {what}"))
    } else if file != "-" && holds_other(file, is_own) {
        Err(format!("{file} is no {what} that order wrote, and would be written over"))
    } else {
        Ok(())
    }
}

/// A number of bytes: digits, with `_` between them where it helps, and K, M or G for 1,024 and its powers.
fn size(text: &str) -> Result<usize, String> {
    let wrong = || format!("expected a size such as 49152, 64K, 10M or 4G, found {text}");
    let (digits, unit) = match text.char_indices().last().ok_or_else(wrong)? {
        (end, 'K' | 'k') => (&text[..end], 1 << 10),
        (end, 'M' | 'm') => (&text[..end], 1 << 20),
        (end, 'G' | 'g') => (&text[..end], 1 << 30),
        _ => (text, 1_usize),
    };
    if !digits.starts_with(|first: char| first.is_ascii_digit()) {
        return Err(wrong());
    }
    let number: usize = digits.replace('_', "").parse().map_err(|_| wrong())?;
    number.checked_mul(unit).ok_or_else(wrong)
}

#[cfg(test)]
mod tests {
    use super::size;

    #[test]
    fn a_size_is_a_number_with_a_unit() {
        let sizes = [
            ("0", 0),
            ("49152", 49_152),
            ("49_152", 49_152),
            ("48K", 49_152),
            ("1_0M", 10 << 20),
            ("4G", 4 << 30),
            ("2k", 2 << 10),
        ];
        for (text, bytes) in sizes {
            assert_eq!(size(text), Ok(bytes), "{text}");
        }
        for text in ["", "K", "_", "_1", "-1", "+1", "1.5G", "4T", "4GG", "4 G", "0x10", "99999999999G", "éG"]
        {
            assert!(size(text).is_err(), "{text}");
        }
    }
}

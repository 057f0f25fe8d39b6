//! The fences of a robust model, which stay as they are.

use explain::fence_locations;
use models::Source;
use program::Line;

use crate::reached::lines_where;
use crate::words::{lines, wrapped};

/// How wide the first column is.
const WIDTH: usize = 48;

/// A row for the lines `fence`, and one for the fences on each location that nothing else uses.
pub fn staying(source: &Source) -> String {
    let own = row(source, "", |line| line == Line::Fence);
    let older = fence_locations(&source.program).into_iter().map(|location| {
        let is_there = |line: Line| line.location() == Some(location);
        row(source, &form(source, location), is_there)
    });
    own + &older.collect::<String>()
}

/// The row of the fences that these lines are, with more about them in words; nothing where there are none.
fn row(source: &Source, more: &str, is_one: impl Fn(Line) -> bool) -> String {
    let numbers = lines_where(source, |thread, line| is_one(source.program.threads[thread][line]));
    let (head, stay) = match numbers[..] {
        [] => return String::new(),
        [_] => ("fence: ", "stays a seq_cst fence"),
        _ => ("fences: ", "stay seq_cst fences"),
    };
    let column = wrapped(head, &format!("{}{more}", lines(&numbers)), WIDTH);
    let (last, above) = column.split_last().expect("a line at least");
    let above: String = above.iter().map(|line| format!("    {line}\n")).collect();
    format!("{above}    {last:<WIDTH$} {stay}\n")
}

/// ` (FADD of 0 on f)`: why the lines on a location are fences.
fn form(source: &Source, location: u8) -> String {
    let all = source.program.threads.iter().flatten().filter(|line| line.location() == Some(location));
    let mut forms: Vec<&str> = all.map(word).collect();
    forms.sort_unstable();
    forms.dedup();
    format!(" ({} on {})", forms.join(", "), source.name(location.into()).unwrap_or_default())
}

fn word(line: &Line) -> &'static str {
    match line {
        Line::Bcas { .. } => "BCAS from 0 to 0",
        Line::Cas { .. } => "CAS from 0 to 0",
        _ => "FADD of 0",
    }
}

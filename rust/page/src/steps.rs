//! The steps of the run as a table.

use crate::element::{element, Element};
use crate::words::Words;

/// The table; the stale access is its last row.
pub fn table(words: &Words) -> Element {
    let heading = |text| element("th").with("scope", "col").text(text);
    let headings = ["step", "thread", "line", "statement", "access"].map(heading);
    let head = element("thead").lines([element("tr").lines(headings)]);
    let rows = (0..words.execution.steps.len()).map(|step| row(words, step));
    element("table").lines([head, element("tbody").lines(rows)])
}

fn row(words: &Words, step: usize) -> Element {
    let taken = &words.execution.steps[step];
    let statement = words.statement(step);
    let (row, stale) = match taken.event {
        Some(event) if words.is_stale(event) => (element("tr").with("class", "stale"), ", stale"),
        _ => (element("tr"), ""),
    };
    let number = element("th").with("scope", "row").text(&format!("{}{stale}", step + 1));
    let thread = element("td").text(&(taken.thread + 1).to_string());
    let line = element("a").with("href", format!("#line-{}", statement.line));
    let line = element("td").child(line.text(&statement.line.to_string()));
    let text = element("td").child(element("code").text(&statement.text));
    let access = match taken.event {
        Some(event) => element("td").child(element("code").text(&words.access(event))),
        None => element("td").with("class", "local").text("none, a local line"),
    };
    [number, thread, line, text, access].into_iter().fold(row, Element::child)
}

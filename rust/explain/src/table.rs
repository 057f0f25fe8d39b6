//! Texts in columns and in lines.

/// How wide a terminal is, in columns.
pub const WIDTH: usize = 80;

/// The rows in columns two blanks apart, each as wide as its widest cell; those of numbers stand at the right of
/// theirs. Every line starts with the indent and ends without blanks.
pub fn table(indent: &str, rows: &[Vec<String>]) -> String {
    let count = rows.iter().map(Vec::len).max().unwrap_or(0);
    let cells = |column: usize| rows.iter().filter_map(move |row| row.get(column));
    let widths: Vec<usize> =
        (0..count).map(|column| cells(column).map(|cell| wide(cell)).max().unwrap_or(0)).collect();
    let line = |row: &Vec<String>| {
        let cells: Vec<String> = row.iter().zip(&widths).map(|(cell, &width)| padded(cell, width)).collect();
        format!("{indent}{}\n", cells.join("  ").trim_end())
    };
    rows.iter().map(line).collect()
}

fn padded(cell: &str, width: usize) -> String {
    let blanks = " ".repeat(width - wide(cell));
    if cell.bytes().all(|byte| byte.is_ascii_digit()) {
        blanks + cell
    } else {
        cell.to_owned() + &blanks
    }
}

/// A blank at which no line ends.
pub const KEPT: &str = "\u{a0}";

/// The words in lines of at most [`WIDTH`] columns where they allow it: the first starts with `first`, the others with
/// as many blanks.
pub fn wrapped(first: &str, words: &str) -> String {
    let indent = " ".repeat(wide(first));
    let mut lines: Vec<String> = vec![];
    for word in words.split(' ') {
        match lines.last_mut() {
            Some(line) if wide(&indent) + wide(line) + 1 + wide(word) <= WIDTH => {
                *line += &format!(" {word}")
            }
            _ => lines.push(word.into()),
        }
    }
    let starts = std::iter::once(first).chain(std::iter::repeat(indent.as_str()));
    lines.iter().zip(starts).map(|(line, start)| format!("{start}{}\n", line.replace(KEPT, " "))).collect()
}

fn wide(text: &str) -> usize {
    text.chars().count()
}

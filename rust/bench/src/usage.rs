//! How `order_bench` is used.

use crate::families::ALL;

/// How many columns a line has at most.
const WIDTH: usize = 120;

const ARGUMENTS: &str = "usage: order_bench [--index SLOTS] [MOST [FAMILY..]]
  --index SLOTS  measures the proved checker alone: its time with an index of SLOTS slots, divided by its time with a
                 fitting one (two to four slots a place); this option comes first
  MOST           programs of at most so many situations; all if not given
  FAMILY         families whose names start so; all if not given";

/// The arguments, and the names of the families.
pub fn usage() -> String {
    format!("{ARGUMENTS}\n{}", wrapped("families:", ALL.iter().map(|family| family.name)))
}

/// Words after a title. Where a line is full, they go on below the first of them.
fn wrapped<'a>(title: &str, words: impl Iterator<Item = &'a str>) -> String {
    let mut text = title.to_string();
    let mut width = title.len();
    for word in words {
        if width + 1 + word.len() > WIDTH {
            text = text + "\n" + &" ".repeat(title.len());
            width = title.len();
        }
        text = text + " " + word;
        width += 1 + word.len();
    }
    text
}

#[cfg(test)]
mod tests {
    use super::{usage, wrapped, WIDTH};
    use crate::families::ALL;

    #[test]
    fn names_every_family_on_lines_that_are_not_too_long() {
        let usage = usage();
        assert!(usage.lines().all(|line| line.len() <= WIDTH), "{usage}");
        let (_, families) = usage.split_once("\nfamilies: ").unwrap();
        let names: Vec<&str> = ALL.iter().map(|family| family.name).collect();
        assert_eq!(families.split_whitespace().collect::<Vec<_>>(), names);
    }

    #[test]
    fn full_lines_are_wrapped() {
        let word = "a".repeat(58);
        // 2 + 59 + 59 columns are just as many as there are.
        assert_eq!(wrapped("b:", [&*word; 4].into_iter()), format!("b: {word} {word}\n   {word} {word}"));
        assert_eq!(wrapped("bc:", [&*word; 2].into_iter()), format!("bc: {word}\n    {word}"));
    }
}

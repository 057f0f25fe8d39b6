//! Building the text of a model: `models/README.md` describes it.

/// The largest number of values, so that rounds, tickets and sequence numbers have room.
const VALUES: usize = 16;

/// The text of a model with these locations, and a thread for each text of lines.
pub fn model(locations: &[String], threads: impl IntoIterator<Item = String>) -> String {
    let header = format!("values {VALUES}\nlocations {}\n", locations.join(" "));
    threads.into_iter().fold(header, |text, lines| text + "thread\n" + &lines)
}

/// Lines that a thread takes for so many rounds. They are counted in r3, and where there are more than 15, in r2 as
/// well: they must be as many as two such loops make. r1 is lost. A thread of no round has no lines.
fn rounds(count: usize, lines: &str) -> String {
    if count == 0 {
        return String::new();
    }
    let outer = count.div_ceil(VALUES - 1);
    let inner = count / outer;
    assert_eq!(inner * outer, count, "two loops don't make so many rounds");
    let again = if outer == 1 {
        String::new()
    } else {
        format!("r3 := 0\nr2 := r2 + 1\nr1 := r2 < {outer}\nif r1 goto round\n")
    };
    format!("round:\n{lines}r3 := r3 + 1\nr1 := r3 < {inner}\nif r1 goto round\n{again}")
}

/// A thread for each number of rounds, with the lines of its place.
pub fn threads<'a>(
    counts: &'a [usize],
    lines: impl Fn(usize) -> String + 'a,
) -> impl Iterator<Item = String> + 'a {
    counts.iter().enumerate().map(move |(t, &count)| rounds(count, &lines(t)))
}

//! What the words advise, and the text of a model with it: as who reads the words would edit it.

/// What the words say of one change of the model.
pub struct Advice {
    pub verdict: String,
    pub change: String,
}

/// The title of the advice and its entries, each on one line.
pub fn advice(words: &str) -> (String, Vec<Advice>) {
    let part = words.split("\n\n").last().unwrap();
    let (title, entries) = part.split_once(":\n").unwrap_or_else(|| panic!("no title: {words}"));
    // A line that goes on starts with blanks in place of a verdict.
    let entries = entries.trim_end().replace(&format!("\n{}", " ".repeat(14)), " ");
    let advice = |entry: &str| Advice { verdict: entry[2..12].trim().into(), change: entry[14..].into() };
    (title.replace('\n', " "), entries.lines().map(advice).collect())
}

/// The lines that an entry names: the first one where it is one fence, which stands after it.
pub fn lines_of(change: &str) -> Vec<usize> {
    let (_, rest) = change.split_once("line").unwrap_or_else(|| panic!("no line: {change}"));
    if let Some(several) = rest.strip_prefix("s ") {
        let numbers = several.split([',', ' ', ':']).map_while(|word| match word {
            "" | "and" => Some(None),
            number => number.parse().ok().map(Some),
        });
        return numbers.flatten().collect();
    }
    let number = rest.trim_start().split(' ').next().unwrap();
    vec![number.parse().unwrap_or_else(|_| panic!("no line: {change}"))]
}

fn code(line: &str) -> &str {
    line.split('#').next().unwrap()
}

/// The text with a fence directly after each of the lines.
pub fn with_fences(text: &str, after: &[usize]) -> String {
    let mut lines: Vec<&str> = text.lines().collect();
    for &line in after.iter().rev() {
        lines.insert(line, "fence");
    }
    lines.join("\n") + "\n"
}

/// The text with a read-modify-write in place of each of the lines.
fn with_updates(text: &str, lines: &[usize]) -> String {
    let edited = |(place, line): (usize, &str)| match lines.contains(&(place + 1)) {
        true => update(code(line)) + "\n",
        false => line.to_owned() + "\n",
    };
    text.lines().enumerate().map(edited).collect()
}

fn update(line: &str) -> String {
    if let Some((before, location)) = line.split_once(":=") {
        return format!("{before}:= FADD({}, 0)", location.trim());
    }
    let (before, condition) = line.split_once("wait").unwrap_or_else(|| panic!("neither: {line}"));
    let (location, value) = condition.trim().trim_matches(['(', ')']).split_once('=').unwrap();
    format!("{before}BCAS({location}, {value} -> {value})")
}

/// The text of the model as the entry says.
pub fn edited(text: &str, change: &str) -> String {
    let lines = lines_of(change);
    if change.starts_with("a fence ") || change.starts_with("fences ") {
        return with_fences(text, &lines);
    }
    let text = with_updates(text, &lines);
    if let Some((written, _)) = change.split_once(" in place of line ") {
        let line = text.lines().nth(lines[0] - 1).unwrap();
        let squeezed = |text: &str| text.split_whitespace().collect::<String>();
        assert!(squeezed(line).contains(&squeezed(written)), "{change}: {line}");
    }
    text
}

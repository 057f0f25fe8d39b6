//! What a verdict means, in words.

use answer::Report;
use models::Source;
use program::{what_check_asks, Line, Operand, Program};

use crate::decide::{seconds, situations, Decided};
use crate::input::Input;
use crate::memory::shown;
use crate::reached::unreached;
use crate::staying::staying;

/// What a report means that has no graph; nothing for a verdict that is not known.
pub fn meaning(input: &Input, decided: &Decided) -> String {
    match (&decided.report, &input.source) {
        (Report::Robust { .. }, Some(source)) => robust(source, decided),
        (Report::Full { count }, _) => full(*count, decided),
        (Report::Refused { number }, _) => format!("No program: {}.\n", refused(input, *number)),
        _ => String::new(),
    }
}

/// What RB allows, and what it does not speak of.
fn robust(source: &Source, decided: &Decided) -> String {
    format!(
        "Robust: every release/acquire run of this model, of any length, ends in thread\n\
         states and an execution graph that some sequentially consistent run reaches too.\n\
         \n\
         What may be weakened, all at once, and no run can show it:\n\
         \n    \
         stores: x := 1                                   to release\n    \
         loads: r0 := x, wait(x = 1), a CAS that fails    to acquire\n    \
         read-modify-writes: FADD, CAS, BCAS              to acquire and release\n\
         {}\
         \n\
         What this does not say:\n\
         \n\
         - The model is what was checked: is it what your routine does?\n\
         - Every access of the model is atomic. Plain data is outside.\n\
         {}{}",
        staying(source),
        sums(&source.program),
        gaps(source, decided).map_or(String::new(), |gaps| item(&format!("In this model {gaps}.")))
    )
}

/// An item of a list, in lines of at most 80 columns.
fn item(text: &str) -> String {
    wrapped("- ", text, 80).join("\n") + "\n"
}

/// The words in lines so wide: the first starts with `first`, the others with as many blanks.
pub fn wrapped(first: &str, text: &str, width: usize) -> Vec<String> {
    let mut words = text.split(' ');
    let mut lines = vec![format!("{first}{}", words.next().unwrap_or_default())];
    for word in words {
        let last = lines.last_mut().expect("the first one");
        if last.chars().count() + 1 + word.chars().count() <= width {
            *last += &format!(" {word}");
        } else {
            lines.push(" ".repeat(first.len()) + word);
        }
    }
    lines
}

/// What wraps, if anything does.
fn sums(program: &Program) -> String {
    let Program { values, .. } = program;
    if !program.threads.iter().flatten().any(is_counting) {
        return String::new();
    }
    format!(
        "- Sums wrap: they are modulo {values}, the number of values. What a counter does that\n  \
         counts past {} is not in this model.\n",
        values - 1
    )
}

/// The parts of a robust model that no run comes to, if there are any: a mistyped value may be to blame.
pub fn gaps(source: &Source, decided: &Decided) -> Option<String> {
    let (never, stuck) = unreached(source, decided.reached.as_ref()?);
    let never = (!never.is_empty()).then(|| format!("no run reaches {}", lines(&never)));
    let stuck = (!stuck.is_empty()).then(|| format!("a thread waits for ever at {}", lines(&stuck)));
    let parts: Vec<String> = [stuck, never].into_iter().flatten().collect();
    (!parts.is_empty()).then(|| format!("{}: nothing is said of what would come then", parts.join(", and ")))
}

/// `line 3`, `lines 3 and 5`, `lines 3, 5 and 7`.
pub fn lines(numbers: &[usize]) -> String {
    let shown: Vec<String> = numbers.iter().map(usize::to_string).collect();
    match shown.split_last() {
        Some((last, [])) => format!("line {last}"),
        Some((last, others)) => format!("lines {} and {last}", others.join(", ")),
        None => String::new(),
    }
}

/// Whether the line has a sum that can wrap.
fn is_counting(line: &Line) -> bool {
    const ZERO: Operand = Operand::Constant(0);
    match line {
        Line::Sum { a, b, .. } => *a != ZERO && *b != ZERO,
        Line::Fadd { a, .. } => *a != ZERO,
        _ => false,
    }
}

fn full(count: usize, decided: &Decided) -> String {
    format!(
        "Undecided: there is no witness in the first {}, and there are more\n\
         than the table of {} has places for. Nothing is said about the model.\n",
        if count == 1 { "situation".into() } else { situations(count) },
        shown(decided.lent.table)
    )
}

/// What the search took.
pub fn effort(decided: &Decided) -> String {
    let (Report::Robust { count } | Report::NotRobust { count, .. } | Report::Full { count }) =
        decided.report
    else {
        return String::new();
    };
    let Decided { lent, time, .. } = decided;
    // The printing program has an index of its own, and is lent none.
    let index = match lent.index {
        0 => String::new(),
        index => format!(" and an index of {}", shown(index)),
    };
    format!("{} in a table of {}{index}, {}.\n", situations(count), shown(lent.table), seconds(*time))
}

/// Why the bytes are no program.
pub fn refused(input: &Input, number: u8) -> String {
    let taken = if number == 1 && !input.bytes.starts_with(b"PR") {
        " (it has a byte 0, and so was not taken for text)"
    } else {
        ""
    };
    format!("check {number} failed, {}{taken}", what_check_asks(number))
}

//! What is shown of a model.

use std::io::{self, IsTerminal};

use answer::Report;
use command::tell;
use explain::Explanation;
use models::collection::{expected, Verdict};

use crate::arguments::{Show, Task};
use crate::data::json;
use crate::decide::{decide, Decided};
use crate::draw::{draw, Drawn};
use crate::input::Input;
use crate::reason::explanation;
use crate::status::Status;
use crate::words::{effort, gaps, meaning, refused};

/// The text for standard output and the status, or what went wrong.
pub fn shown(input: &Input, task: &Task) -> Result<(String, Status), String> {
    let decided = decide(input, task)?;
    tell_beside(input, &decided, task);
    let text = match task.show {
        Show::Expected => return as_expected(input, &decided.report),
        Show::Report if !task.draws() && task.files.len() > 1 => named(input, &decided.report),
        Show::Report if !task.draws() => lines(&decided),
        _ => return with_reasons(input, &decided, task),
    };
    Ok((text, Status::of(&decided.report)))
}

/// What is said on standard error of a report.
fn tell_beside(input: &Input, decided: &Decided, task: &Task) {
    let say = |message: String| tell(format!("order: {}: {message}", input.name));
    if let Report::Refused { number } = decided.report {
        say(format!("no program: {}", refused(input, number)));
    }
    if task.show == Show::Words {
        return;
    }
    if let Some(gaps) = input.source.as_ref().and_then(|source| gaps(source, decided)) {
        say(if input.is_text { gaps } else { format!("{gaps} (lines of its disassembly)") });
    }
    if task.verbose && !effort(decided).is_empty() {
        say(effort(decided).trim_end().into());
    }
    let at_terminal = io::stdout().is_terminal() && io::stderr().is_terminal();
    if at_terminal && task.show == Show::Report && matches!(decided.report, Report::NotRobust { .. }) {
        say("--explain says why".into());
    }
}

/// The lines of the printing program.
fn lines(decided: &Decided) -> String {
    let first = format!("{}\n", decided.report);
    decided.steps.iter().fold(first, |text, step| text + &format!("{step}\n"))
}

/// The first of them, with the name of the file.
fn named(input: &Input, report: &Report) -> String {
    format!("{}: {report}\n", input.name)
}

/// What is shown where the reasons are asked for, in whatever form. A page that can't be written costs no report.
fn with_reasons(input: &Input, decided: &Decided, task: &Task) -> Result<(String, Status), String> {
    let explanation = explanation(input, decided)?;
    let explanation = explanation.as_ref();
    let words = words(input, decided, explanation, task.verbose);
    let Drawn { instead, failures } = draw(input, decided, explanation, &words, task);
    failures.iter().for_each(|message| tell(format!("order: {message}")));
    let status = if failures.is_empty() { Status::of(&decided.report) } else { Status::Failed };
    let text = instead.unwrap_or_else(|| match task.show {
        Show::Json => format!("{}\n", json(input, decided, explanation)),
        Show::Words if task.files.len() > 1 => format!("{}\n{words}\n", named(input, &decided.report)),
        Show::Words => format!("{}\n\n{words}", decided.report),
        Show::Report | Show::Expected => lines(decided),
    });
    Ok((text, status))
}

/// What the report means.
fn words(input: &Input, decided: &Decided, explanation: Option<&Explanation>, verbose: bool) -> String {
    let meaning = match explanation {
        Some(explanation) => explanation.words(verbose),
        None => meaning(input, decided),
    };
    if verbose {
        format!("{meaning}\n{}", effort(decided))
    } else {
        meaning
    }
}

/// Whether the verdict is that of the model's own `# expect` line.
fn as_expected(input: &Input, report: &Report) -> Result<(String, Status), String> {
    let name = &input.name;
    let expected = expected(&input.text).map_err(|what| format!("{name}:{what}"))?;
    let (word, agrees) = match expected {
        Verdict::Robust => ("RB", matches!(report, Report::Robust { .. })),
        Verdict::NotRobust => ("NR", matches!(report, Report::NotRobust { .. })),
    };
    Ok(if agrees {
        (format!("{name}: {report}, as expected\n"), Status::Good)
    } else {
        (format!("{name}: {report}, but {word} is expected\n"), Status::Failed)
    })
}

//! A report as data: docs/FORMAT.md has the members.

use answer::Report;
use explain::{Explanation, Json};

use crate::decide::Decided;
use crate::input::Input;
use crate::words::{gaps, refused};

/// The version of order_check.h.
const VERSION: &str = env!("CARGO_PKG_VERSION_MINOR");

/// The report as an object.
pub fn json(input: &Input, decided: &Decided, explanation: Option<&Explanation>) -> Json {
    let Decided { report, steps, lent, time, .. } = decided;
    let line = report.to_string();
    let error = match report {
        Report::Refused { number } => refused(input, *number).as_str().into(),
        _ => Json::Null,
    };
    let gaps = input.source.as_ref().and_then(|source| gaps(source, decided));
    object(
        &input.file,
        [
            line.split(' ').next().unwrap_or_default().into(),
            line.as_str().into(),
            Json::list(steps, |step| step.to_string().as_str().into()),
            situations(report),
            lent.table.into(),
            lent.index.into(),
            usize::try_from(time.as_millis()).unwrap_or(usize::MAX).into(),
            explanation.map_or(Json::Null, Explanation::json),
            gaps.as_deref().map_or(Json::Null, Json::from),
            error,
        ],
    )
}

/// What went wrong with a file, as an object with the same members.
pub fn error(file: &str, message: &str) -> Json {
    let mut members = [const { Json::Null }; MEMBERS.len()];
    members[MEMBERS.len() - 1] = message.into();
    object(file, members)
}

/// The members, after those that all objects have.
const MEMBERS: [&str; 10] = [
    "verdict",
    "report",
    "steps",
    "situations",
    "table_bytes",
    "index_bytes",
    "milliseconds",
    "explanation",
    "gaps",
    "error",
];

fn object(file: &str, members: [Json; MEMBERS.len()]) -> Json {
    let version = VERSION.parse().map_or(Json::Null, Json::Number);
    let first = [("version", version), ("file", file.into())];
    Json::Object(first.into_iter().chain(MEMBERS.into_iter().zip(members)).collect())
}

fn situations(report: &Report) -> Json {
    match report {
        Report::Robust { count } | Report::NotRobust { count, .. } | Report::Full { count } => {
            (*count).into()
        }
        _ => Json::Null,
    }
}

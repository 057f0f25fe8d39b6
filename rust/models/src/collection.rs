//! The models of this repository, each with the verdict that its text expects and the report that is stored of it.

use std::fs;
use std::path::{Path, PathBuf};

use crate::assemble;
use crate::text::shortened;

/// What a model expects of the checker.
#[derive(Clone, Copy, Debug, PartialEq, Eq)]
pub enum Verdict {
    /// `# expect RB`
    Robust,
    /// `# expect NR`
    NotRobust,
}

/// A model that assembles and says what it expects.
#[derive(Clone, Debug)]
pub struct Model {
    /// The name of its file, without the ending.
    pub name: String,
    /// Its program bytes.
    pub bytes: Vec<u8>,
    /// The verdict of its `# expect` line.
    pub expected: Verdict,
    /// What the printing program prints for it: the text of its file in [`REPORTS`].
    pub report: String,
}

/// The folder of the stored reports, beside the models; each is named as its model and ends in `.txt`.
pub const REPORTS: &str = "reports";

/// Where the models stand: `models/` at the root of the repository.
pub fn directory() -> PathBuf {
    Path::new(env!("CARGO_MANIFEST_DIR")).join("../../models")
}

/// All models of the directory, by name, or what is wrong with the first that is no good one.
pub fn load(directory: &Path) -> Result<Vec<Model>, String> {
    let show = |error: std::io::Error| format!("{}: {error}", directory.display());
    let mut models = Vec::new();
    for entry in fs::read_dir(directory).map_err(show)? {
        let path = entry.map_err(show)?.path();
        if path.extension().is_some_and(|ending| ending == "order") {
            models.push(load_one(&path).map_err(|what| format!("{}:{what}", path.display()))?);
        }
    }
    models.sort_by(|one, other| one.name.cmp(&other.name));
    Ok(models)
}

/// The model of this repository that has the name, or what is wrong.
pub fn named(name: &str) -> Result<Model, String> {
    let models = load(&directory())?;
    models.into_iter().find(|model| model.name == name).ok_or_else(|| format!("no model {name}"))
}

fn load_one(path: &Path) -> Result<Model, String> {
    let text = fs::read_to_string(path).map_err(|error| format!(" {error}"))?;
    let name = path.file_stem().unwrap_or_default().to_string_lossy().into_owned();
    Ok(Model {
        bytes: assemble(text.as_bytes()).map_err(|mistake| mistake.to_string())?,
        expected: expected(&text)?,
        report: report(&path.with_file_name(REPORTS).join(format!("{name}.txt")))?,
        name,
    })
}

fn report(path: &Path) -> Result<String, String> {
    fs::read_to_string(path).map_err(|error| format!(" no report {}: {error}", path.display()))
}

/// The verdict of the one line `# expect RB` or `# expect NR`. A comment that looks like another one is a mistake: it
/// may be the line that was meant.
pub fn expected(text: &str) -> Result<Verdict, String> {
    let near: Vec<_> = text.lines().enumerate().filter(|(_, line)| is_near(line)).collect();
    match near[..] {
        [(_, line)] => verdict(line),
        _ => None,
    }
    .ok_or_else(|| format!(" expected one line '# expect RB' or '# expect NR'{}", found_instead(&near)))
}

/// Whether it is a comment that says, in some spelling, what is expected.
fn is_near(line: &str) -> bool {
    let comment = line.trim_start().strip_prefix('#').map(|comment| comment.trim_start().to_lowercase());
    comment.is_some_and(|comment| comment.starts_with("expect"))
}

fn verdict(line: &str) -> Option<Verdict> {
    match line {
        "# expect RB" => Some(Verdict::Robust),
        "# expect NR" => Some(Verdict::NotRobust),
        _ => None,
    }
}

/// Of the comments that look like such a line, with their numbers, the first that is none, or the second that is one.
fn found_instead(near: &[(usize, &str)]) -> String {
    let wrong = near.iter().find(|(_, line)| verdict(line).is_none());
    match (wrong, near.get(1)) {
        (Some((number, line)), _) => format!(", found '{}' on line {}", shortened(line), number + 1),
        (None, Some((number, _))) => format!(", found a second one on line {}", number + 1),
        (None, None) => String::new(),
    }
}

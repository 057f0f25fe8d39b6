//! The page and the graph, as files.

use std::fs;

use command::name_of;
use explain::Explanation;
use models::Source;
use page::{dot, no_graph, Graph, Page};
use program::Program;

use crate::arguments::Task;
use crate::decide::Decided;
use crate::input::Input;

/// What stands in for the model where the bytes are no program.
static NOTHING: Source = Source {
    program: Program { threads: Vec::new(), locations: 0, values: 0 },
    locations: Vec::new(),
    statements: Vec::new(),
};

/// What came of drawing.
#[derive(Default)]
pub struct Drawn {
    /// What takes the report's place.
    pub instead: Option<String>,
    /// Which files could not be written, and why.
    pub failures: Vec<String>,
}

/// Writes what the task asks for.
pub fn draw(
    input: &Input,
    decided: &Decided,
    explanation: Option<&Explanation>,
    words: &str,
    task: &Task,
) -> Drawn {
    let source = input.source.as_ref().unwrap_or(&NOTHING);
    let graph = explanation.map(|it| Graph { execution: it.execution(), cycle: it.cycle() });
    let mut drawn = Drawn::default();
    if let Some(file) = &task.html {
        let Input { name, text, .. } = input;
        let page = Page { name, text, source, report: &decided.report, graph, words };
        drawn.put(file, page.html());
    }
    if let Some(file) = &task.dot {
        drawn.put(file, graph.map_or_else(|| no_graph(&decided.report), |graph| dot(source, &graph)));
    }
    drawn
}

impl Drawn {
    /// Writes a file; `-` stands for the report's place.
    fn put(&mut self, file: &str, text: String) {
        if file == "-" {
            self.instead = Some(text);
        } else if let Err(error) = fs::write(file, text) {
            self.failures.push(format!("{}: {error}", name_of(file)));
        }
    }
}

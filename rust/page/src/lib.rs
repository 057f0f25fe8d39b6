//! The report on a model as a page of HTML, and its execution graph for graphviz. The page is one file without scripts,
//! and asks for no other.
#![forbid(unsafe_code)]

mod dot;
mod drawn;
mod element;
mod escape;
mod html;
mod legend;
mod own;
mod picture;
mod relations;
mod steps;
mod style;
mod verdict;
mod words;

use answer::Report;
use explain::{Edge, Execution};
use models::Source;

use element::element;
use picture::{svg, Picture};
use style::style;

pub use dot::{dot, no_graph};
pub use own::{is_graph, is_page};
pub use verdict::verdict;

/// The picture of a graph alone, as a file of SVG with a style of its own.
pub fn picture(source: &Source, graph: &Graph) -> String {
    let ground = "svg { background: var(--ground); }\n";
    let style = element("style").sheet(&format!("{}{ground}", style()));
    format!("{}\n", svg(&Picture::of(source, graph)).child(style))
}

/// What a page shows.
#[derive(Clone, Copy, Debug)]
pub struct Page<'a> {
    /// The name of the model's file.
    pub name: &'a str,
    /// The model's text; of program bytes their disassembly.
    pub text: &'a str,
    /// The same, read.
    pub source: &'a Source,
    /// The report on it.
    pub report: &'a Report,
    /// The graph of the report; none where it is not NR.
    pub graph: Option<Graph<'a>>,
    /// The explanation in words, with its line ends. May be empty.
    pub words: &'a str,
}

/// An execution graph, and the cycle in it.
#[derive(Clone, Copy, Debug)]
pub struct Graph<'a> {
    /// The graph. It is one of the page's model.
    pub execution: &'a Execution,
    /// The cycle. Its edges are between events of the graph.
    pub cycle: &'a [Edge],
}

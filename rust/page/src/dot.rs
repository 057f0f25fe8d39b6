//! The execution graph for graphviz.

use answer::Report;
use explain::Edge;
use models::Source;

use crate::drawn::Drawn;
use crate::own::NO_GRAPH;
use crate::picture::{without_head, Picture, Point, Rect, Wire};
use crate::relations::Look;
use crate::words::Words;
use crate::Graph;

const SANS: &str = "sans-serif";

/// How far beside a line its name stands.
const BESIDE: i32 = 10;

/// The graph in the language of graphviz, for `dot`. All stands where it stands in the page's picture, by the engine
/// `nop2`, which takes places as they are given; without that attribute graphviz finds places of its own.
pub fn dot(source: &Source, graph: &Graph) -> String {
    let picture = Picture::of(source, graph);
    let drawing = &picture.drawing;
    let nodes = |thread: Option<usize>| -> String {
        let events = drawing.events().filter(|&event| drawing.column(event) == thread);
        events.map(|event| node(&drawing.words, event, &picture.boxes[&event])).collect()
    };
    let cluster = |(thread, rect): (usize, &Rect)| cluster(thread + 1, rect, &nodes(Some(thread)));
    let clusters: String = picture.columns.iter().enumerate().map(cluster).collect();
    let edges =
        drawing.edges.iter().zip(&picture.wires).map(|(drawn, wire)| edge(&drawing.words, drawn, wire));
    let edges: String = edges.collect();
    let all = attributes([("layout", "nop2"), ("fontname", SANS)].map(owned));
    let all_nodes = [("shape", "box"), ("fixedsize", "true"), ("fontname", "monospace"), ("fontsize", "11")];
    let all_nodes = attributes(all_nodes.map(owned));
    let all_edges = attributes([("fontname", SANS), ("fontsize", "11")].map(owned));
    let starts = nodes(None);
    format!(
        "digraph execution {{\n  graph {all};\n  node {all_nodes};\n  edge {all_edges};\n  \
         {{\n    rank=min;\n{starts}  }}\n{clusters}{edges}}}\n"
    )
}

/// What stands for the graph of a report that has none, so that no older one is taken for it.
pub fn no_graph(report: &Report) -> String {
    let [start, end] = NO_GRAPH;
    format!("{start}{report}{end}")
}

/// The column of a thread. Heights count upward.
fn cluster(number: usize, rect: &Rect, nodes: &str) -> String {
    let (left, right, top, bottom) = (rect.x, rect.right(), -rect.y, -rect.bottom());
    let look = attributes([
        ("label", format!("thread {number}")),
        ("lp", place((rect.middle(), rect.y + 15))),
        ("bb", format!("{left},{bottom},{right},{top}")),
        ("color", "gray".into()),
    ]);
    format!("  subgraph cluster_{number} {{\n    graph {look};\n{nodes}  }}\n")
}

fn node(words: &Words, event: usize, rect: &Rect) -> String {
    let style = match words.execution.events[event].step {
        None => "rounded",
        Some(_) if words.is_stale(event) => "dashed",
        Some(_) => "solid",
    };
    let look = attributes([
        ("label", format!("{}\n{}", words.access(event), words.origin(event))),
        ("style", style.into()),
        ("pos", place((rect.middle(), rect.y + rect.height / 2))),
        ("width", inches(rect.width)),
        ("height", inches(rect.height)),
    ]);
    format!("    e{event} {look};\n")
}

fn edge(words: &Words, drawn: &Drawn, wire: &Wire) -> String {
    let Edge { from, to, .. } = drawn.edge;
    let Look { short, colours: [colour, _], style, head, .. } = *words.look(drawn.edge);
    // Graphviz has nothing behind a name to hide the line.
    let name = if drawn.is_next { wire.name } else { (wire.name.0 + BESIDE, wire.name.1) };
    let look = attributes([
        ("label", short.into()),
        ("color", colour.into()),
        ("fontcolor", colour.into()),
        ("style", style.into()),
        ("arrowhead", head.into()),
        ("penwidth", if drawn.in_cycle { "3" } else { "1" }.into()),
        ("pos", spline(&wire.points, drawn.in_cycle)),
        ("lp", place(name)),
    ]);
    format!("  e{from} -> e{to} {look};\n")
}

/// A line as graphviz has them: the tip of the head, and curves with two points between their ends, here straight.
fn spline(points: &[Point], in_cycle: bool) -> String {
    let way = without_head(points, in_cycle);
    let straight =
        |pair: &[Point]| [pair[0], pair[1], pair[1]].map(|point| format!(" {}", place(point))).concat();
    let [tip, start] = [points.last(), way.first()].map(|end| end.copied().map(place).unwrap_or_default());
    format!("e,{tip} {start}{}", way.windows(2).map(straight).collect::<String>())
}

/// A point. Heights count upward.
fn place((x, y): Point) -> String {
    format!("{x},{}", -y)
}

/// A length of the picture, which has 72 to an inch.
fn inches(length: i32) -> String {
    format!("{:.3}", f64::from(length) / 72.0)
}

fn owned((name, value): (&'static str, &str)) -> (&'static str, String) {
    (name, value.into())
}

/// A list of attributes, each value between quotation marks.
fn attributes<const N: usize>(list: [(&str, String); N]) -> String {
    let quoted = |text: String| text.replace('\\', r"\\").replace('"', "\\\"").replace('\n', r"\n");
    let list = list.map(|(name, value)| format!("{name}=\"{}\"", quoted(value)));
    format!("[{}]", list.join(", "))
}

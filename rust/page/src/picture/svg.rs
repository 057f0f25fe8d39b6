//! The picture's text.

use std::cmp::Reverse;

use crate::drawn::Drawn;
use crate::element::{element, Element};
use crate::relations::{look, Look};
use crate::words::Words;

use super::path::{head, path, without_head};
use super::trunks::root_and_leaf;
use super::{Picture, Rect, Wire};

/// The room around the picture, for bold lines at its sides.
const MARGIN: i32 = 8;

/// A picture higher than this could not be read on one page, and is printed on several.
const TALL: i32 = 4_000;

/// The picture as an element of HTML, with a text in its place. Role `img` would hide its parts from screen readers.
pub fn svg(picture: &Picture) -> Element {
    let Picture { drawing, boxes, columns, .. } = picture;
    let [width, height] = [picture.width, picture.height].map(|it| it + 2 * MARGIN);
    let cycle: Vec<String> = picture.cycle.iter().map(|&edge| drawing.words.of_edge(edge, false)).collect();
    let cycle = element("desc").text(&format!("The cycle: {}", cycle.join("; ")));
    let columns = columns.iter().enumerate().map(|(thread, rect)| column(picture, thread, rect));
    let events = boxes.iter().map(|(&event, rect)| event_box(&drawing.words, event, rect));
    element("svg")
        .with("xmlns", "http://www.w3.org/2000/svg")
        .with("class", if height > TALL { "graph tall" } else { "graph" })
        .with("role", "graphics-document document")
        .with("aria-label", summary(picture))
        .with("viewBox", format!("{} {} {width} {height}", -MARGIN, -MARGIN))
        .with_all([("width", width), ("height", height)])
        .lines([cycle].into_iter().chain(columns).chain(events).chain(edges(picture)))
}

fn summary(picture: &Picture) -> String {
    let (starts, threads) = (picture.drawing.starts(), picture.drawing.threads());
    let accesses = picture.boxes.len() - starts;
    format!(
        "Execution graph: {accesses} accesses in {threads} columns, one for each thread, below {starts} \
         starting writes"
    )
}

/// A ground for a thread's column, with its heading.
fn column(picture: &Picture, thread: usize, rect: &Rect) -> Element {
    let heading = |y: i32| label("heading", rect.middle(), y, &format!("thread {}", thread + 1));
    let column = element("g").with("class", "thread");
    let column = column.child(shape(rect, 6).with("class", "column")).child(heading(rect.y + 20));
    if picture.is_long {
        column.child(heading(rect.bottom() - 12))
    } else {
        column
    }
}

/// A rectangle with round corners.
fn shape(rect: &Rect, radius: i32) -> Element {
    let Rect { x, y, width, height } = *rect;
    element("rect").with_all([("x", x), ("y", y), ("width", width), ("height", height), ("rx", radius)])
}

fn label(class: &str, x: i32, y: i32, text: &str) -> Element {
    element("text").with("class", class).with_all([("x", x), ("y", y)]).text(text)
}

fn event_box(words: &Words, event: usize, rect: &Rect) -> Element {
    let is_start = words.execution.events[event].step.is_none();
    let (class, radius) = match (is_start, words.is_stale(event)) {
        (true, _) => ("event start", rect.height / 2),
        (_, true) => ("event stale", 4),
        _ => ("event", 4),
    };
    let drawn = part(class, &words.of_event(event))
        .with("id", format!("event-{event}"))
        .child(shape(rect, radius))
        .child(label("access", rect.middle(), rect.y + 17, &words.access(event)))
        .child(label("origin", rect.middle(), rect.y + 32, &words.origin(event)));
    if words.is_stale(event) {
        // It is the last one, so that there is room below.
        drawn.child(label("mark", rect.middle(), rect.bottom() + 15, "stale"))
    } else {
        drawn
    }
}

/// A part of the picture, with the text that is read for it.
fn part(class: &str, title: &str) -> Element {
    element("g").with("class", class).with("role", "img").child(element("title").text(title))
}

/// The edges: of those that share a line the shorter ones later, so that no line is drawn over a name, and those of the
/// cycle last.
fn edges(picture: &Picture) -> Vec<Element> {
    let drawing = &picture.drawing;
    let mut edges: Vec<(&Drawn, &Wire)> = drawing.edges.iter().zip(&picture.wires).collect();
    let rows = |drawn: &Drawn| drawing.row(drawn.edge.from).abs_diff(drawing.row(drawn.edge.to));
    edges.sort_by_key(|(drawn, _)| (drawn.in_cycle, Reverse(rows(drawn))));
    edges.into_iter().map(|(drawn, wire)| edge(&drawing.words, drawn, wire)).collect()
}

fn edge(words: &Words, drawn: &Drawn, wire: &Wire) -> Element {
    let Drawn { edge, in_cycle, is_next } = *drawn;
    let Look { relation, short, .. } = *words.look(edge);
    let class = format!("edge {}{}", look(relation).short, if in_cycle { " cycle" } else { "" });
    let mut way = without_head(&wire.points, in_cycle);
    if root_and_leaf(drawn).0 == edge.to {
        // Where edges share a line, their dashes fall on each other.
        way.reverse();
    }
    let line = |class: &str, data: String| element("path").with("class", class).with("d", data);
    let (x, y) = wire.name;
    part(&class, &words.of_edge(edge, in_cycle))
        .with("data-from", format!("event-{}", edge.from))
        .with("data-to", format!("event-{}", edge.to))
        .child(line("way", path(&way)))
        .child(line("head", head(&wire.points, in_cycle)))
        .child(label(if is_next { "name beside" } else { "name" }, x, y + 4, short))
}

//! What the lines and boxes of the picture stand for.

use crate::element::{element, Element};
use crate::relations::{look, Look, FENCE_ORDER, LOOKS};

/// The legend as a list, for a model with fences or without.
pub fn legend(has_fence: bool) -> Element {
    let entry_of = |Look { relation, short, name, meaning, .. }: &Look| {
        entry(line(&format!("edge {}", look(*relation).short)), short, &format!(" {name}: {meaning}"))
    };
    let others = [
        entry(line("edge po cycle"), "bold", ": the cycle, which no SC run has; it may leap over events"),
        entry(rect("event stale", 3), "dashed box", ": the stale access, by an older write"),
        entry(rect("event start", 9), "round box", ": the starting write of a location"),
    ];
    let entries = LOOKS.iter().chain(has_fence.then_some(&FENCE_ORDER)).map(entry_of).chain(others);
    element("ul").with("class", "legend").with("aria-label", "Legend").lines(entries)
}

fn entry(sample: Element, term: &str, text: &str) -> Element {
    let sample = element("svg")
        .with("xmlns", "http://www.w3.org/2000/svg")
        .with("class", "sample")
        .with("viewBox", "0 0 48 20")
        .with_all([("width", 48), ("height", 20)])
        .with("aria-hidden", true)
        .child(sample);
    element("li").child(sample).child(element("span").child(element("b").text(term)).text(text))
}

fn line(class: &str) -> Element {
    let way = element("path").with("class", "way").with("d", "M2 10L38 10");
    let head = element("path").with("class", "head").with("d", "M46 10L36 5L36 15Z");
    element("g").with("class", class).child(way).child(head)
}

fn rect(class: &str, radius: i32) -> Element {
    let rect = element("rect").with_all([("x", 2), ("y", 1), ("width", 44), ("height", 18), ("rx", radius)]);
    element("g").with("class", class).child(rect)
}

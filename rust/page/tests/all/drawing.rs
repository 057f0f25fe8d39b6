//! The picture of a page, read back.

use crate::reported::Reported;
use crate::xml::{parse, Element};

/// A stretch of a line, from a point to the next.
pub type Segment = [(i32, i32); 2];

/// A rectangle by its least and greatest coordinates.
#[derive(Clone, Copy, Debug, PartialEq, Eq)]
pub struct Area {
    pub x: [i32; 2],
    pub y: [i32; 2],
}

impl Area {
    pub fn meets(&self, other: &Area) -> bool {
        let apart = |one: [i32; 2], other: [i32; 2]| one[1] <= other[0] || other[1] <= one[0];
        !apart(self.x, other.x) && !apart(self.y, other.y)
    }

    pub fn contains(&self, (x, y): (i32, i32)) -> bool {
        (self.x[0]..=self.x[1]).contains(&x) && (self.y[0]..=self.y[1]).contains(&y)
    }
}

/// An edge as it is drawn.
pub struct DrawnEdge {
    /// The ids of its boxes.
    pub ends: [String; 2],
    pub relation: String,
    pub in_cycle: bool,
    pub title: String,
    /// Its line from its first event, with each turn as a corner. That of from-read is drawn the other way.
    pub line: Vec<(i32, i32)>,
    /// The tip of its head, and the two points behind it.
    pub head: Vec<(i32, i32)>,
    /// About the place of its name.
    pub name: Area,
}

/// A box as it is drawn.
pub struct DrawnBox {
    pub id: String,
    pub class: String,
    pub title: String,
    pub access: String,
    pub origin: String,
    pub area: Area,
}

/// A picture with its boxes and edges.
pub struct Drawing {
    pub area: Area,
    pub boxes: Vec<DrawnBox>,
    pub edges: Vec<DrawnEdge>,
    pub headings: Vec<String>,
}

/// The page of a report, read as XML.
pub fn page(reported: &Reported) -> Element {
    parse(&reported.html("")).unwrap_or_else(|wrong| panic!("{}: {wrong}", reported.name))
}

impl Drawing {
    /// The picture of a report that has one.
    pub fn of(reported: &Reported) -> Drawing {
        let page = page(reported);
        let graph = page.with_class("graph")[0];
        let parts: Vec<i32> = graph.attribute("viewBox").split(' ').map(|it| it.parse().unwrap()).collect();
        Drawing {
            area: Area { x: [parts[0], parts[0] + parts[2]], y: [parts[1], parts[1] + parts[3]] },
            boxes: graph.with_class("event").into_iter().map(drawn_box).collect(),
            edges: graph.with_class("edge").into_iter().map(drawn_edge).collect(),
            headings: graph.with_class("heading").into_iter().map(Element::text).collect(),
        }
    }

    pub fn with_id(&self, id: &str) -> &DrawnBox {
        self.boxes.iter().find(|it| it.id == id).unwrap_or_else(|| panic!("no box {id}"))
    }
}

impl DrawnEdge {
    pub fn segments(&self) -> Vec<Segment> {
        self.line.windows(2).map(|pair| [pair[0], pair[1]]).collect()
    }
}

fn text_of(element: &Element, class: &str) -> String {
    element.with_class(class)[0].text()
}

fn drawn_box(element: &Element) -> DrawnBox {
    let rect = element.named("rect")[0];
    let [x, y, width, height] = ["x", "y", "width", "height"].map(|name| rect.number(name));
    DrawnBox {
        id: element.attribute("id").into(),
        class: element.attribute("class").into(),
        title: element.named("title")[0].text(),
        access: text_of(element, "access"),
        origin: text_of(element, "origin"),
        area: Area { x: [x, x + width], y: [y, y + height] },
    }
}

fn drawn_edge(element: &Element) -> DrawnEdge {
    let mut line = points(element.with_class("way")[0].attribute("d"));
    if element.has_class("fr") {
        line.reverse();
    }
    let name = element.with_class("name")[0];
    let (x, y) = (name.number("x"), name.number("y"));
    DrawnEdge {
        ends: ["data-from", "data-to"].map(|end| element.attribute(end).into()),
        relation: name.text(),
        in_cycle: element.has_class("cycle"),
        title: element.named("title")[0].text(),
        line,
        head: points(element.with_class("head")[0].attribute("d")),
        // Two letters of 12 pixels.
        name: Area { x: [x - 8, x + 8], y: [y - 10, y + 3] },
    }
}

/// The points of a line: M, L, Q and Z are all that is used.
fn points(data: &str) -> Vec<(i32, i32)> {
    let numbers = data.split(['M', 'L', 'Q', 'Z', ' ']).filter(|part| !part.is_empty());
    let numbers: Vec<i32> = numbers.map(|part| part.parse().unwrap()).collect();
    numbers.chunks(2).map(|pair| (pair[0], pair[1])).collect()
}

//! The execution graph as a picture, in SVG.
//!
//! Each thread has a column, and each event a row of its own, in the order of the steps: time runs downward. The
//! starting writes stand above, side by side, or, where that would be too wide, as stairs that lead down to the right.
//! As no other box stands in its row, an edge leaves its box along the row, goes up or down in a gutter between two
//! columns, and comes to its other box along that one's row: it meets no box in between. Lines that would lie on one
//! another have lanes side by side.

mod boxes;
mod frame;
mod lanes;
mod path;
mod ports;
mod svg;
mod trunks;
mod wires;

use std::collections::BTreeMap;

use explain::Edge;
use models::Source;

use crate::drawn::{drawn, Drawn};
use crate::words::Words;
use crate::Graph;

use boxes::{boxes, starts_end, GAP};
use frame::Frame;
use ports::Ports;
use trunks::trunks;
use wires::Wiring;

pub use boxes::Rect;
pub use path::{without_head, Point};
pub use svg::svg;
pub use wires::Wire;

/// With more rows than this the headings stand below the columns too.
const MANY_ROWS: usize = 12;

/// A graph, and where its parts stand.
pub struct Picture<'a> {
    pub drawing: Drawing<'a>,
    pub cycle: &'a [Edge],
    /// The box of each event that is drawn.
    pub boxes: BTreeMap<usize, Rect>,
    /// The way of each edge that is drawn.
    pub wires: Vec<Wire>,
    /// The column of each thread, with room for its heading.
    pub columns: Vec<Rect>,
    pub width: i32,
    pub height: i32,
    /// Whether it has many rows.
    pub is_long: bool,
}

impl<'a> Picture<'a> {
    pub fn of(source: &'a Source, graph: &Graph<'a>) -> Picture<'a> {
        let words = Words { source, execution: graph.execution };
        let drawing = Drawing { words, edges: drawn(&words, graph.cycle) };
        let (trunks, lanes) = trunks(&drawing);
        let frame = Frame::of(&drawing, &lanes);
        let ports = Ports::of(&drawing, &trunks);
        let wiring = Wiring { drawing: &drawing, frame: &frame, trunks: &trunks, ports: &ports };
        let turns = wiring.turns();
        let boxes = boxes(&drawing, &frame, turns.height);
        let wires = wiring.wires(&boxes, &turns);
        let is_long = boxes.len() - drawing.starts() > MANY_ROWS;
        let bottom = boxes.values().map(Rect::bottom).max().unwrap_or(0);
        let height = bottom + if is_long { 3 * GAP } else { 3 * GAP / 2 };
        let columns = frame.columns(starts_end(&frame) + turns.height, height);
        Picture { cycle: graph.cycle, boxes, wires, columns, width: frame.width, height, is_long, drawing }
    }
}

/// What is drawn.
pub struct Drawing<'a> {
    pub words: Words<'a>,
    pub edges: Vec<Drawn>,
}

impl Drawing<'_> {
    /// How many columns there are.
    pub fn threads(&self) -> usize {
        self.words.source.statements.len()
    }

    /// How many starting writes are drawn, which are the first events.
    pub fn starts(&self) -> usize {
        self.words.source.locations.len()
    }

    /// The events that are drawn.
    pub fn events(&self) -> impl Iterator<Item = usize> + '_ {
        (0..self.words.execution.events.len()).filter(|&event| self.words.is_drawn(event))
    }

    /// The column of an event; none for a starting write.
    pub fn column(&self, event: usize) -> Option<usize> {
        self.words.execution.events[event].thread
    }

    /// The row of an event, from 1; 0 is that of the starting writes.
    fn row(&self, event: usize) -> usize {
        (event + 1).saturating_sub(self.words.execution.orders.len())
    }
}

//! Where the boxes of the events stand, from top to bottom too.

use std::collections::BTreeMap;

use super::frame::{Frame, Span};
use super::Drawing;

pub const HEIGHT: i32 = 40;
/// The room between two rows, where the names of the relations stand.
pub const GAP: i32 = 20;
/// Room for the headings of the columns.
const HEADING: i32 = 26;

/// A box.
#[derive(Clone, Copy)]
pub struct Rect {
    pub x: i32,
    pub y: i32,
    pub width: i32,
    pub height: i32,
}

impl Rect {
    pub fn bottom(&self) -> i32 {
        self.y + self.height
    }

    pub fn right(&self) -> i32 {
        self.x + self.width
    }

    pub fn middle(&self) -> i32 {
        self.x + self.width / 2
    }
}

/// The room between two tiers of starting writes.
const TIER_GAP: i32 = GAP / 2;

/// Where the starting writes end, and lines from them may turn.
pub fn starts_end(frame: &Frame) -> i32 {
    frame.tiers() as i32 * (HEIGHT + TIER_GAP) - TIER_GAP
}

/// The box of each event that is drawn, with so much room below the starting writes.
pub fn boxes(drawing: &Drawing, frame: &Frame, turns: i32) -> BTreeMap<usize, Rect> {
    let rect = |event| {
        let y = match drawing.row(event) as i32 {
            0 => (event % frame.tiers()) as i32 * (HEIGHT + TIER_GAP),
            row => starts_end(frame) + turns + HEADING + GAP + (row - 1) * (HEIGHT + GAP),
        };
        let Span { left, width } = frame.span(drawing, event);
        Rect { x: left, y, width, height: HEIGHT }
    };
    drawing.events().map(|event| (event, rect(event))).collect()
}

//! Where columns, gutters and starting writes stand, from left to right.

use super::boxes::Rect;
use super::trunks::Trunk;
use super::Drawing;

/// The distance of two lanes: the short name of a relation stands on one and leaves the next free. All lanes are at
/// multiples of it, so that a line halfway between them lies on none.
pub const LANE: i32 = 20;

/// Room for a sign of the access, and of what stands below it in a smaller type.
const SIGN: i32 = 8;
const SMALL_SIGN: i32 = 6;
const PADDING: i32 = 20;

/// The least width of a box; a heading has room in it.
const LEAST: i32 = 100;

/// Room between a column's sides and its boxes.
const MARGIN: i32 = 8;

/// Starting writes that ask for more than this, and for more than the columns, stand in several tiers.
const WIDE: i32 = 1_280;

/// The most tiers.
const TIERS: usize = 4;

/// How far to the right of a starting write the next tier's stands: the lines from the first lead down before the next.
pub const STEP: i32 = 3 * LANE;

/// A part of the picture's width.
#[derive(Clone, Copy)]
pub struct Span {
    pub left: i32,
    pub width: i32,
}

/// Positions from left to right.
pub struct Frame {
    pub width: i32,
    /// The boxes of each column.
    columns: Vec<Span>,
    /// The box of each starting write.
    starts: Vec<Span>,
    /// How many tiers these have.
    tiers: usize,
    /// The left side of each gutter.
    gutters: Vec<i32>,
}

impl Frame {
    /// The positions with so many lanes in each gutter.
    pub fn of(drawing: &Drawing, lanes: &[usize]) -> Frame {
        let starts: Vec<i32> = (0..drawing.starts()).map(|start| widest(drawing, start..=start)).collect();
        let columns: Vec<i32> = (0..drawing.threads()).map(|thread| column_width(drawing, thread)).collect();
        let gutters: Vec<i32> = (0..lanes.len()).map(|gutter| gutter_width(lanes, gutter)).collect();
        let columns_width: i32 = columns.iter().chain(&gutters).sum();
        let fits = |&tiers: &usize| stairs_width(&starts, tiers) <= columns_width.max(WIDE);
        let tiers = (1..TIERS).find(fits).unwrap_or(TIERS);
        let starts_width = stairs_width(&starts, tiers);
        let width = columns_width.max(starts_width);
        let (gutters, columns) = beside(on_lane((width - columns_width) / 2), &gutters, &columns);
        Frame { width, columns, starts: spread(width - starts_width, &starts, tiers), tiers, gutters }
    }

    /// How many tiers the starting writes have.
    pub fn tiers(&self) -> usize {
        self.tiers
    }

    /// The columns between two heights, a little wider than their boxes.
    pub fn columns(&self, top: i32, bottom: i32) -> Vec<Rect> {
        let column = |span: &Span| Rect {
            x: span.left - MARGIN,
            y: top,
            width: span.width + 2 * MARGIN,
            height: bottom - top,
        };
        self.columns.iter().map(column).collect()
    }

    /// Where the line of a trunk runs.
    pub fn lane(&self, trunk: &Trunk) -> i32 {
        self.gutters[trunk.line.gutter] + (trunk.lane as i32 + 1) * LANE
    }

    /// Where an event's box stands.
    pub fn span(&self, drawing: &Drawing, event: usize) -> Span {
        drawing.column(event).map_or_else(|| self.starts[event], |column| self.columns[column])
    }
}

/// The boxes of a column are as wide as the longest text in one asks for.
fn column_width(drawing: &Drawing, thread: usize) -> i32 {
    widest(drawing, drawing.events().filter(|&event| drawing.column(event) == Some(thread)))
}

fn widest(drawing: &Drawing, events: impl IntoIterator<Item = usize>) -> i32 {
    let width = |event| {
        let [access, origin] = [drawing.words.access(event), drawing.words.origin(event)];
        let [access, origin] = [access, origin].map(|text| text.chars().count() as i32);
        (access * SIGN).max(origin * SMALL_SIGN) + PADDING
    };
    on_lane(events.into_iter().map(width).max().unwrap_or(0).max(LEAST) + LANE - 1)
}

/// Between two columns there is always room for a lane.
fn gutter_width(lanes: &[usize], gutter: usize) -> i32 {
    let is_outer = gutter == 0 || gutter + 1 == lanes.len();
    (lanes[gutter].max(usize::from(!is_outer)) as i32 + 1) * LANE
}

/// Gutters and columns of these widths in turn, from this side on.
fn beside(mut left: i32, gutters: &[i32], columns: &[i32]) -> (Vec<i32>, Vec<Span>) {
    let (mut sides, mut spans) = (Vec::new(), Vec::new());
    for (place, gutter) in gutters.iter().enumerate() {
        sides.push(left);
        left += gutter;
        if let Some(&width) = columns.get(place) {
            spans.push(Span { left, width });
            left += width;
        }
    }
    (sides, spans)
}

/// Starting writes of these widths, with so much room to spare between the stairs that they make.
fn spread(spare: i32, widths: &[i32], tiers: usize) -> Vec<Span> {
    let gap = 2 * LANE + on_lane(spare / widths.len().div_ceil(tiers).max(1) as i32);
    let mut next = on_lane(gap / 2);
    let stair = |stair: &[i32]| {
        let left = next;
        next += stair_width(stair) + gap;
        let spans = stair.iter().enumerate().map(|(tier, &width)| Span { left: left + step(tier), width });
        spans.collect::<Vec<_>>()
    };
    widths.chunks(tiers).flat_map(stair).collect()
}

/// The width of starting writes with these widths in so many tiers.
fn stairs_width(widths: &[i32], tiers: usize) -> i32 {
    widths.chunks(tiers).map(|stair| stair_width(stair) + 2 * LANE).sum()
}

/// The width of a stair: one starting write in each tier, from the highest on.
fn stair_width(widths: &[i32]) -> i32 {
    widths.iter().enumerate().map(|(tier, width)| step(tier) + width).max().unwrap_or(0)
}

fn step(tier: usize) -> i32 {
    tier as i32 * STEP
}

/// The last multiple of the lanes' distance.
fn on_lane(x: i32) -> i32 {
    x / LANE * LANE
}

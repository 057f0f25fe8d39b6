//! The way of each edge.

use std::collections::{BTreeMap, HashMap};

use super::boxes::{starts_end, Rect, GAP};
use super::frame::{Frame, Span, LANE, STEP};
use super::lanes::lanes;
use super::path::Point;
use super::ports::{ends, Port, Ports, Side};
use super::trunks::{root_and_leaf, Trunk};
use super::Drawing;

/// The distance of two lines below the starting writes.
const TURN: i32 = 10;

/// How far beside a straight line its name stands.
const BESIDE: i32 = 15;

/// The way of an edge, and where its name stands.
#[derive(Clone, Default)]
pub struct Wire {
    pub points: Vec<Point>,
    /// The middle of the name.
    pub name: Point,
}

/// What the ways are made from.
pub struct Wiring<'a> {
    pub drawing: &'a Drawing<'a>,
    pub frame: &'a Frame,
    pub trunks: &'a [Trunk],
    pub ports: &'a Ports,
}

/// How far below the starting writes the line from each of their ports turns.
pub struct Turns {
    at: HashMap<Port, i32>,
    /// The room that all need.
    pub height: i32,
}

impl Wiring<'_> {
    /// A line from a starting write turns once, and then leads past all lanes of its trunks.
    pub fn turns(&self) -> Turns {
        let mut stretches: BTreeMap<(i32, usize), (Port, (i32, i32))> = BTreeMap::new();
        for trunk in self.trunks {
            let lane = self.frame.lane(trunk);
            let starting = ends(self.drawing, trunk).filter(|(_, port)| port.side == Side::Below);
            for (_, port) in starting {
                let x = self.below(&port);
                let known = stretches.entry((x, port.event)).or_insert((port, (x, x)));
                known.1 = (known.1 .0.min(lane), known.1 .1.max(lane));
            }
        }
        let (ports, stretches): (Vec<Port>, Vec<(i32, i32)>) = stretches.into_values().unzip();
        let (found, count) = lanes(&stretches);
        let at = ports.into_iter().zip(found.into_iter().map(|lane| (lane as i32 + 1) * TURN)).collect();
        Turns { at, height: (count as i32 + 1) * TURN }
    }

    /// Where a port below a starting write is: between two lanes, and left of the next tier.
    fn below(&self, port: &Port) -> i32 {
        let Span { left, width } = self.frame.span(self.drawing, port.event);
        let free = if self.frame.tiers() == 1 { width } else { STEP };
        left + self.ports.offset(port, free) / LANE * LANE + LANE / 2
    }

    /// The way of each edge that is drawn.
    pub fn wires(&self, boxes: &BTreeMap<usize, Rect>, turns: &Turns) -> Vec<Wire> {
        let straight = |edge: explain::Edge| {
            let (x, top) = (boxes[&edge.to].middle(), boxes[&edge.to].y);
            Wire {
                points: vec![(x, boxes[&edge.from].bottom()), (x, top)],
                name: (x + BESIDE, top - GAP / 2),
            }
        };
        let mut wires: Vec<Wire> = self.drawing.edges.iter().map(|drawn| straight(drawn.edge)).collect();
        for trunk in self.trunks {
            for &at in &trunk.edges {
                wires[at] = self.wire(trunk, at, boxes, turns);
            }
        }
        wires
    }

    /// From the box to the lane, along it, and to the other box. The name stands beside the row of the end that is the
    /// edge's own.
    fn wire(&self, trunk: &Trunk, at: usize, boxes: &BTreeMap<usize, Rect>, turns: &Turns) -> Wire {
        let drawn = &self.drawing.edges[at];
        let lane = self.frame.lane(trunk);
        let mut points = self.end(&Port::of(self.drawing, trunk, drawn.edge.from, true), boxes, turns);
        let mut end = self.end(&Port::of(self.drawing, trunk, drawn.edge.to, false), boxes, turns);
        let turn = |points: &[Point]| points.last().map(|&(_, y)| (lane, y));
        points.extend(turn(&points));
        end.extend(turn(&end));
        points.extend(end.into_iter().rev());
        let (root, leaf) = root_and_leaf(drawn);
        let is_above = boxes[&root].y < boxes[&leaf].y;
        let y = if is_above { boxes[&leaf].y - GAP / 2 } else { boxes[&leaf].bottom() + GAP / 2 };
        Wire { points, name: (lane, y) }
    }

    /// The way from a port to where it turns to the lane.
    fn end(&self, port: &Port, boxes: &BTreeMap<usize, Rect>, turns: &Turns) -> Vec<Point> {
        let rect = &boxes[&port.event];
        let y = rect.y + self.ports.offset(port, rect.height);
        match port.side {
            Side::Left => vec![(rect.x, y)],
            Side::Right => vec![(rect.right(), y)],
            Side::Below => {
                let x = self.below(port);
                vec![(x, rect.bottom()), (x, starts_end(self.frame) + turns.at[port])]
            }
        }
    }
}

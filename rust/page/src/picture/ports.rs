//! Where lines meet boxes: each at a point of its own, those that come from above above those that come from below.

use std::collections::HashMap;

use explain::Relation;

use super::trunks::Trunk;
use super::Drawing;

/// A side of a box.
#[derive(Clone, Copy, Debug, PartialEq, Eq, Hash)]
pub enum Side {
    Left,
    Right,
    /// Of starting writes, which stand side by side.
    Below,
}

/// A point at a side of a box. What is drawn alike meets it at one.
#[derive(Clone, Copy, PartialEq, Eq, Hash)]
pub struct Port {
    pub event: usize,
    pub side: Side,
    relation: Relation,
    in_cycle: bool,
    leaves: bool,
}

impl Port {
    /// The point where an edge of the trunk leaves the event, or reaches it.
    pub fn of(drawing: &Drawing, trunk: &Trunk, event: usize, leaves: bool) -> Port {
        let side = match drawing.column(event) {
            None => Side::Below,
            Some(column) if column < trunk.line.gutter => Side::Right,
            Some(_) => Side::Left,
        };
        let (relation, in_cycle) = (trunk.line.relation, trunk.line.in_cycle);
        Port { event, side, relation, in_cycle, leaves }
    }
}

/// All points at the sides of boxes, those of a side in their order.
pub struct Ports(HashMap<(usize, Side), Vec<Port>>);

impl Ports {
    pub fn of(drawing: &Drawing, trunks: &[Trunk]) -> Ports {
        let mut ports: HashMap<_, Vec<Port>> = HashMap::new();
        let mut all: Vec<(usize, Port)> = trunks.iter().flat_map(|trunk| ends(drawing, trunk)).collect();
        all.sort_by_key(|&(row, _)| row);
        for (_, port) in all {
            let side = ports.entry((port.event, port.side)).or_default();
            if !side.contains(&port) {
                side.push(port);
            }
        }
        Ports(ports)
    }

    /// How far along its side the point is, on a side of this length.
    pub fn offset(&self, port: &Port, length: i32) -> i32 {
        let side = &self.0[&(port.event, port.side)];
        let before = side.iter().take_while(|&other| other != port).count() as i32;
        length * (before + 1) / (side.len() as i32 + 1)
    }
}

/// The ports of a trunk's edges, each with the row where the edge has its other end.
pub fn ends<'a>(drawing: &'a Drawing, trunk: &'a Trunk) -> impl Iterator<Item = (usize, Port)> + 'a {
    trunk.edges.iter().flat_map(move |&at| {
        let edge = drawing.edges[at].edge;
        [(edge.from, edge.to, true), (edge.to, edge.from, false)]
            .map(|(event, other, leaves)| (drawing.row(other), Port::of(drawing, trunk, event, leaves)))
    })
}

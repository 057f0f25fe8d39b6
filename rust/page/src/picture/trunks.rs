//! Which edges share a line, and in which gutter it runs.

use std::collections::HashMap;

use explain::Relation;

use crate::drawn::Drawn;

use super::lanes::lanes;
use super::Drawing;

/// A line down a gutter: the edges of a relation from one event, or to one of from-read, on one side of it.
pub struct Trunk {
    pub line: Line,
    /// The lane in the gutter, from the left.
    pub lane: usize,
    /// The edges, as places in the list of those drawn.
    pub edges: Vec<usize>,
}

/// What the edges of a trunk have in common.
#[derive(Clone, Copy, PartialEq, Eq, Hash)]
pub struct Line {
    /// The event that they share.
    root: usize,
    pub relation: Relation,
    /// Whether they are of the cycle, whose edges have lines of their own.
    pub in_cycle: bool,
    /// The gutter: that of number n is left of column n, and the last one right of all.
    pub gutter: usize,
}

/// The two ends of an edge: the one that others share its line with, and its own.
pub fn root_and_leaf(drawn: &Drawn) -> (usize, usize) {
    match drawn.edge.relation {
        Relation::FromRead => (drawn.edge.to, drawn.edge.from),
        _ => (drawn.edge.from, drawn.edge.to),
    }
}

/// The trunks of all edges that are no straight lines, each in its lane, and how many lanes each gutter has.
pub fn trunks(drawing: &Drawing) -> (Vec<Trunk>, Vec<usize>) {
    let mut trunks = gathered(drawing);
    let counts = (0..=drawing.threads()).map(|gutter| place(drawing, &mut trunks, gutter)).collect();
    (trunks, counts)
}

fn gathered(drawing: &Drawing) -> Vec<Trunk> {
    let mut trunks: Vec<Trunk> = Vec::new();
    let mut known = HashMap::new();
    for (place, drawn) in drawing.edges.iter().enumerate().filter(|(_, drawn)| !drawn.is_next) {
        let (root, leaf) = root_and_leaf(drawn);
        let gutter = gutter(drawing, root, leaf);
        let line = Line { root, relation: drawn.edge.relation, in_cycle: drawn.in_cycle, gutter };
        let at = *known.entry(line).or_insert_with(|| {
            trunks.push(Trunk { line, lane: 0, edges: Vec::new() });
            trunks.len() - 1
        });
        trunks[at].edges.push(place);
    }
    trunks
}

/// The gutter of an edge: beside the root, on the side of the leaf; within a column and from the starting writes the
/// outer one, as the inner ones have more lines.
fn gutter(drawing: &Drawing, root: usize, leaf: usize) -> usize {
    match (drawing.column(root), drawing.column(leaf)) {
        (Some(root), Some(leaf)) if root < leaf => root + 1,
        (Some(root), Some(leaf)) if root > leaf => root,
        (Some(column), _) | (None, Some(column)) => column + usize::from(!is_left(drawing, column)),
        (None, None) => 0,
    }
}

fn is_left(drawing: &Drawing, column: usize) -> bool {
    2 * column < drawing.threads()
}

/// Gives each trunk of the gutter its lane, the shortest innermost, and counts the lanes.
fn place(drawing: &Drawing, trunks: &mut [Trunk], gutter: usize) -> usize {
    let mut here: Vec<&mut Trunk> = trunks.iter_mut().filter(|trunk| trunk.line.gutter == gutter).collect();
    let stretches: Vec<(i32, i32)> = here.iter().map(|trunk| rows(drawing, trunk)).collect();
    let (found, count) = lanes(&stretches);
    for (trunk, lane) in here.iter_mut().zip(found) {
        trunk.lane = if is_left(drawing, gutter) { count - 1 - lane } else { lane };
    }
    count
}

/// The rows that a trunk leads past, from the first to the last.
fn rows(drawing: &Drawing, trunk: &Trunk) -> (i32, i32) {
    let edges = trunk.edges.iter().map(|&at| drawing.edges[at].edge);
    let rows = edges.flat_map(|edge| [edge.from, edge.to]).map(|event| drawing.row(event) as i32);
    rows.fold((i32::MAX, i32::MIN), |(first, last), row| (first.min(row), last.max(row)))
}

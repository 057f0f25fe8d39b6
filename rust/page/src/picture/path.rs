//! The lines of edges and their heads.

/// The radius of a line's turns.
const RADIUS: i32 = 7;

/// A point of the picture, from the left and from the top.
pub type Point = (i32, i32);

/// The data of a line along the points in SVG, with round turns.
pub fn path(points: &[Point]) -> String {
    let mut data = points.first().map_or_else(String::new, |(x, y)| format!("M{x} {y}"));
    data.extend(points.windows(3).map(|part| turn(part[0], part[1], part[2])));
    data.extend(points.last().map(|(x, y)| format!("L{x} {y}")));
    data
}

/// The same points, but the last one within the edge's head.
pub fn without_head(points: &[Point], in_cycle: bool) -> Vec<Point> {
    let mut points = points.to_vec();
    if let [.., before, last] = &mut points[..] {
        *last = toward(*last, *before, head_length(in_cycle) - 1);
    }
    points
}

/// The data of the edge's head in SVG.
pub fn head(points: &[Point], in_cycle: bool) -> String {
    let [.., before, tip] = *points else { return String::new() };
    let length = head_length(in_cycle);
    let (x, y) = toward(tip, before, length);
    // The same way, turned by a right angle.
    let across = ((y - tip.1) / 2, (x - tip.0) / 2);
    format!("M{} {}L{} {}L{} {}Z", tip.0, tip.1, x + across.0, y + across.1, x - across.0, y - across.1)
}

fn head_length(in_cycle: bool) -> i32 {
    if in_cycle {
        12
    } else {
        8
    }
}

/// To a turn and round it.
fn turn(before: Point, at: Point, after: Point) -> String {
    let far = |other: Point| (other.0 - at.0).abs() + (other.1 - at.1).abs();
    let radius = RADIUS.min(far(before) / 2).min(far(after) / 2);
    let [from, to] = [before, after].map(|other| toward(at, other, radius));
    format!("L{} {}Q{} {} {} {}", from.0, from.1, at.0, at.1, to.0, to.1)
}

/// The point so far on the way, which is level or upright.
fn toward(from: Point, to: Point, distance: i32) -> Point {
    (from.0 + distance * (to.0 - from.0).signum(), from.1 + distance * (to.1 - from.1).signum())
}

//! Where the picture's parts stand: none on another, all inside.

use crate::drawing::{Area, Drawing, DrawnEdge, Segment};
use crate::reported::with_graph;

/// What looks at each picture, with its name.
fn for_each_picture(look: impl Fn(&str, &Drawing)) {
    for reported in with_graph() {
        look(&reported.name, &Drawing::of(reported));
    }
}

/// The inside of a box.
fn inside(area: &Area) -> Area {
    Area { x: [area.x[0] + 1, area.x[1] - 1], y: [area.y[0] + 1, area.y[1] - 1] }
}

fn area_of([from, to]: Segment) -> Area {
    let span = |one: i32, other: i32| [one.min(other), one.max(other) + 1];
    Area { x: span(from.0, to.0), y: span(from.1, to.1) }
}

fn is_upright([from, to]: Segment) -> bool {
    from.0 == to.0
}

#[test]
fn no_two_boxes_overlap() {
    for_each_picture(|name, drawing| {
        for (place, one) in drawing.boxes.iter().enumerate() {
            for other in &drawing.boxes[place + 1..] {
                assert!(!one.area.meets(&other.area), "{name}: {} {}", one.id, other.id);
            }
        }
    });
}

#[test]
fn time_runs_downward_and_each_thread_has_its_column() {
    for reported in with_graph() {
        let drawing = Drawing::of(reported);
        let events = &reported.execution.as_ref().unwrap().events;
        let threads: Vec<_> = reported.events_drawn().into_iter().map(|event| events[event].thread).collect();
        let starts = reported.source.locations.len();
        let top = |place: usize| drawing.boxes[place].area.y[0];
        assert_eq!(threads.len(), drawing.boxes.len(), "{}", reported.name);
        for place in starts..threads.len() {
            let mut before = drawing.boxes[..place].iter();
            assert!(before.all(|it| it.area.y[1] < top(place)), "{}: {place}", reported.name);
            for other in starts..place {
                let is_one = drawing.boxes[place].area.x == drawing.boxes[other].area.x;
                assert_eq!(is_one, threads[place] == threads[other], "{}", reported.name);
            }
        }
    }
}

#[test]
fn all_is_inside_the_picture() {
    for_each_picture(|name, drawing| {
        let contains =
            |area: &Area| [0, 1].iter().all(|&end| drawing.area.contains((area.x[end], area.y[end])));
        assert!(drawing.boxes.iter().all(|it| contains(&it.area)), "{name}");
        assert!(drawing.edges.iter().all(|edge| contains(&edge.name)), "{name}");
        let points = drawing.edges.iter().flat_map(|edge| edge.line.iter().chain(&edge.head));
        assert!(points.copied().all(|point| drawing.area.contains(point)), "{name}");
    });
}

/// Whether the point is on the rim of the area.
fn is_on_rim(area: &Area, (x, y): (i32, i32)) -> bool {
    area.contains((x, y)) && (area.x.contains(&x) || area.y.contains(&y))
}

#[test]
fn each_edge_leads_from_its_box_to_its_other_box() {
    for_each_picture(|name, drawing| {
        for edge in &drawing.edges {
            let [from, to] = [0, 1].map(|end| drawing.with_id(&edge.ends[end]).area);
            assert!(is_on_rim(&from, edge.line[0]), "{name}: {}", edge.title);
            assert!(is_on_rim(&to, edge.head[0]), "{name}: {}", edge.title);
            let (end, tip) = (*edge.line.last().unwrap(), edge.head[0]);
            let gap = (end.0 - tip.0).abs() + (end.1 - tip.1).abs();
            assert!(gap < 12 && (end.0 == tip.0 || end.1 == tip.1), "{name}: {}", edge.title);
            for [from, to] in edge.segments() {
                assert!(from.0 == to.0 || from.1 == to.1, "{name}: {}", edge.title);
            }
        }
    });
}

#[test]
fn no_edge_goes_through_a_box_or_up_along_one() {
    for_each_picture(|name, drawing| {
        for edge in &drawing.edges {
            for segment in edge.segments() {
                let room = if is_upright(segment) { 10 } else { 0 };
                for drawn in &drawing.boxes {
                    let Area { x: [left, right], y } = inside(&drawn.area);
                    let area = Area { x: [left - room, right + room], y };
                    assert!(!area.meets(&area_of(segment)), "{name}: {} {}", drawn.id, edge.title);
                }
            }
        }
    });
}

#[test]
fn an_edge_between_two_columns_stays_between_them() {
    for_each_picture(|name, drawing| {
        for edge in &drawing.edges {
            let [from, to] = [0, 1].map(|end| drawing.with_id(&edge.ends[end]));
            if from.class == "event start" || from.area.x == to.area.x {
                continue;
            }
            let [left, right] = [from.area.x[1].min(to.area.x[1]), from.area.x[0].max(to.area.x[0])];
            let is_between = edge.line.iter().all(|(x, _)| (left..=right).contains(x));
            assert!(is_between, "{name}: {}", edge.title);
        }
    });
}

#[test]
fn the_names_of_edges_meet_neither_boxes_nor_each_other() {
    for_each_picture(|name, drawing| {
        for (place, edge) in drawing.edges.iter().enumerate() {
            for drawn in &drawing.boxes {
                assert!(!drawn.area.meets(&edge.name), "{name}: {} {}", drawn.id, edge.title);
            }
            for other in &drawing.edges[place + 1..] {
                assert!(!edge.name.meets(&other.name), "{name}: {} {}", edge.title, other.title);
            }
        }
    });
}

#[test]
fn no_line_is_drawn_over_a_name() {
    for_each_picture(|name, drawing| {
        for (place, edge) in drawing.edges.iter().enumerate() {
            for later in &drawing.edges[place + 1..] {
                let mut areas = later.segments().into_iter().map(area_of);
                assert!(!areas.any(|area| area.meets(&edge.name)), "{name}: {} {}", later.title, edge.title);
            }
        }
    });
}

/// Whether a line that is drawn otherwise lies along one of this edge's, and does not only cross it.
fn lies_on(edge: &DrawnEdge, other: &DrawnEdge) -> bool {
    edge.segments().into_iter().any(|one| {
        let others = other.segments().into_iter().filter(|&it| is_upright(it) == is_upright(one));
        others.map(area_of).any(|area| area.meets(&area_of(one)))
    })
}

#[test]
fn no_edge_lies_on_one_that_is_drawn_otherwise() {
    for_each_picture(|name, drawing| {
        for (place, edge) in drawing.edges.iter().enumerate() {
            let otherwise = |other: &&DrawnEdge| {
                (&other.relation, other.in_cycle) != (&edge.relation, edge.in_cycle)
                    || (edge.ends[0] != other.ends[0] && edge.ends[1] != other.ends[1])
            };
            for other in drawing.edges[place + 1..].iter().filter(otherwise) {
                assert!(!lies_on(edge, other), "{name}: {} / {}", edge.title, other.title);
            }
        }
    });
}

//! The graph for graphviz.

use std::collections::HashSet;

use page::dot;

use crate::drawing::Drawing;
use crate::reported::{named, with_graph, Reported};
use crate::skip::skipped;

fn dot_of(reported: &Reported) -> String {
    dot(&reported.source, &reported.graph().unwrap())
}

#[test]
fn the_graph_of_sb_is_this_one() {
    let sb = named("sb.order");
    let text = dot_of(sb);
    let lines: Vec<&str> = text.lines().map(str::trim).collect();
    let start = |line: &str| lines.iter().filter(|it| it.starts_with(line)).count();
    for node in [
        r#"e0 [label="W x = 0\nstarting write", style="rounded", "#,
        r#"e3 [label="R y = 0\nstep 2, line 8", style="solid", "#,
        r#"e5 [label="R x = 0\nstep 4, line 11", style="dashed", "#,
    ] {
        assert_eq!(start(node), 1, "{node}\n{text}");
    }
    for (edge, colour, look) in [
        (r#"e2 -> e3 [label="po""#, "#333333", r#"style="solid", arrowhead="normal", penwidth="3""#),
        (r#"e1 -> e3 [label="rf""#, "#c8001e", r#"style="dashed", arrowhead="normal", penwidth="1""#),
        (r#"e0 -> e2 [label="mo""#, "#1748d1", r#"style="dotted", arrowhead="normal", penwidth="1""#),
        (r#"e5 -> e2 [label="fr""#, "#a35200", r#"style="solid", arrowhead="empty", penwidth="3""#),
    ] {
        let edge = format!(r#"{edge}, color="{colour}", fontcolor="{colour}", {look}, "#);
        assert_eq!(start(&edge), 1, "{edge}\n{text}");
    }
    assert_eq!(lines.iter().filter(|line| line.starts_with("subgraph cluster_")).count(), 2);
}

#[test]
fn a_fence_is_a_node_and_its_starting_write_none() {
    let text = dot_of(named("fences.order"));
    let lines: Vec<&str> = text.lines().map(str::trim).collect();
    let start = |line: &str| lines.iter().filter(|it| it.starts_with(line)).count();
    let node = r#"e6 [label="fence\nstep 4, line 8", style="solid", "#;
    assert_eq!((start(node), start("e2 "), start(r#"e6 -> e7 [label="fo", "#)), (1, 0, 1), "{text}");
}

/// From, to, relation and whether it is bold, of an edge that is seen.
fn edge_of(line: &str) -> Option<(String, String, String, bool)> {
    let (ends, rest) = line.trim().split_once(" [label=\"")?;
    let (from, to) = ends.split_once(" -> ")?;
    let id = |node: &str| node.replace('e', "event-");
    Some((id(from), id(to), rest[..2].into(), rest.contains("penwidth=\"3\"")))
}

#[test]
fn it_has_the_edges_of_the_picture() {
    for reported in with_graph() {
        let found: HashSet<_> = dot_of(reported).lines().filter_map(edge_of).collect();
        let drawn = Drawing::of(reported).edges;
        let drawn: HashSet<_> = drawn
            .into_iter()
            .map(|it| {
                let [from, to] = it.ends;
                (from, to, it.relation, it.in_cycle)
            })
            .collect();
        assert_eq!(found, drawn, "{}", reported.name);
    }
}

/// The nodes that graphviz made, each with the middle of its box in points from the left and from the bottom.
fn nodes(plain: &str) -> Vec<(String, [i32; 2])> {
    let points = |inches: &str| (inches.parse::<f64>().unwrap() * 72.0).round() as i32;
    let node = |line: &str| {
        let parts: Vec<&str> = line.strip_prefix("node ")?.split(' ').collect();
        Some((parts[0].replace('e', "event-"), [points(parts[1]), points(parts[2])]))
    };
    plain.lines().filter_map(node).collect()
}

#[test]
fn graphviz_puts_the_boxes_where_the_picture_has_them() {
    if std::process::Command::new("dot").arg("-V").output().is_err() {
        return skipped("graphviz: skipped, no dot");
    }
    for reported in with_graph().iter().filter(|reported| reported.name.ends_with(".order")) {
        let output = run::run("dot", &["-Tplain"], dot_of(reported).as_bytes());
        assert!(output.status.success() && output.stderr.is_empty(), "{}: {output:?}", reported.name);
        let nodes = nodes(&String::from_utf8(output.stdout).unwrap());
        let drawing = Drawing::of(reported);
        assert_eq!(nodes.len(), drawing.boxes.len(), "{}", reported.name);
        let middle = |id: &str| {
            let area = drawing.with_id(id).area;
            [(area.x[0] + area.x[1]) / 2, -(area.y[0] + area.y[1]) / 2]
        };
        let (first, at) = &nodes[0];
        for (id, place) in &nodes {
            for axis in [0, 1] {
                let shift = (place[axis] - at[axis]) - (middle(id)[axis] - middle(first)[axis]);
                assert!(shift.abs() <= 2, "{}: {id}", reported.name);
            }
        }
    }
}

//! Which edges are drawn, and how.

use std::collections::HashSet;

use explain::{holds, Edge, Relation};
use page::dot;

use crate::drawing::{page, Drawing, DrawnEdge};
use crate::reported::{named, with_graph, Reported};

const RELATIONS: [(Relation, &str, &str); 4] = [
    (Relation::ProgramOrder, "po", "program order"),
    (Relation::ReadsFrom, "rf", "reads-from"),
    (Relation::ModificationOrder, "mo", "modification order"),
    (Relation::FromRead, "fr", "from-read"),
];

/// The name of an edge between two fences, of which the later one reads the other.
const FENCE_ORDER: &str = "fo";

/// The edge of the graph that is drawn so.
fn edge_of(drawn: &DrawnEdge) -> Edge {
    let [from, to] = [0, 1].map(|end| drawn.ends[end].strip_prefix("event-").unwrap().parse().unwrap());
    let relation = match drawn.relation.as_str() {
        FENCE_ORDER => Relation::ReadsFrom,
        other => RELATIONS.iter().find(|(_, short, _)| *short == other).unwrap().0,
    };
    Edge { from, to, relation }
}

#[test]
fn each_edge_that_is_drawn_holds_and_is_drawn_once() {
    for reported in with_graph() {
        let execution = reported.execution.as_ref().unwrap();
        let edges: Vec<Edge> = Drawing::of(reported).edges.iter().map(edge_of).collect();
        for &edge in &edges {
            assert!(holds(execution, edge), "{}: {edge:?}", reported.name);
        }
        assert_eq!(edges.iter().collect::<HashSet<_>>().len(), edges.len(), "{}", reported.name);
    }
}

/// For each event those that edges lead to from it, over any number of them.
fn reached(events: usize, edges: &[Edge]) -> Vec<HashSet<usize>> {
    let from = |start: usize| {
        let mut reached = HashSet::new();
        let mut due = vec![start];
        while let Some(event) = due.pop() {
            let next = edges.iter().filter(|edge| edge.from == event).map(|edge| edge.to);
            due.extend(next.filter(|&to| reached.insert(to)));
        }
        reached
    };
    (0..events).map(from).collect()
}

/// All edges of the graph but program order from the starting writes, which stand above all others, and all from that of
/// the fences.
fn all_edges(reported: &Reported) -> Vec<Edge> {
    let execution = reported.execution.as_ref().unwrap();
    let events = execution.events.len();
    let pairs = (0..events).flat_map(|from| (0..events).map(move |to| (from, to)));
    let edges = pairs.flat_map(|(from, to)| RELATIONS.map(|(relation, ..)| Edge { from, to, relation }));
    let is_start = |edge: &Edge| execution.events[edge.from].thread.is_none();
    edges
        .filter(|edge| holds(execution, *edge))
        .filter(|edge| edge.relation != Relation::ProgramOrder || !is_start(edge))
        .filter(|edge| Some(edge.from) != reported.start_of_fences())
        .collect()
}

#[test]
fn all_other_edges_follow_from_those_drawn() {
    for reported in with_graph() {
        let execution = reported.execution.as_ref().unwrap();
        let edges: Vec<Edge> = Drawing::of(reported).edges.iter().map(edge_of).collect();
        let size = execution.events.len();
        assert_eq!(reached(size, &edges), reached(size, &all_edges(reported)), "{}", reported.name);
        let reads = |edge: &&Edge| edge.relation == Relation::ReadsFrom;
        let is_drawn = |write: &usize| Some(*write) != reported.start_of_fences();
        let readers = execution.events.iter().filter_map(|event| event.source).filter(is_drawn).count();
        assert_eq!(edges.iter().filter(reads).count(), readers, "{}", reported.name);
    }
}

#[test]
fn just_the_edges_of_the_cycle_are_bold_and_say_so() {
    for reported in with_graph() {
        let drawing = Drawing::of(reported);
        let bold: HashSet<Edge> = drawing.edges.iter().filter(|it| it.in_cycle).map(edge_of).collect();
        assert_eq!(bold, reported.cycle.iter().copied().collect(), "{}", reported.name);
        for drawn in &drawing.edges {
            assert_eq!(drawn.title.contains("in the cycle"), drawn.in_cycle, "{}", drawn.title);
        }
    }
    let style = page(&with_graph()[0]).named("style")[0].text();
    assert!(style.contains(".cycle .way { stroke-width: 3.6; }"), "{style}");
}

#[test]
fn an_edge_is_told_in_words() {
    let sb = named("sb.order");
    let mut titles: Vec<String> = Drawing::of(sb).edges.into_iter().map(|it| it.title).collect();
    titles.sort();
    assert_eq!(
        titles,
        [
            "from-read, in the cycle: from R x = 0 (step 4, thread 2, stale) to W x = 1 (step 1, thread 1)",
            "from-read, in the cycle: from R y = 0 (step 2, thread 1) to W y = 1 (step 3, thread 2)",
            "modification order: from W x = 0 (starting write) to W x = 1 (step 1, thread 1)",
            "modification order: from W y = 0 (starting write) to W y = 1 (step 3, thread 2)",
            "program order, in the cycle: from W x = 1 (step 1, thread 1) to R y = 0 (step 2, thread 1)",
            "program order, in the cycle: from W y = 1 (step 3, thread 2) to R x = 0 (step 4, thread 2, stale)",
            "reads-from: from W x = 0 (starting write) to R x = 0 (step 4, thread 2, stale)",
            "reads-from: from W y = 0 (starting write) to R y = 0 (step 2, thread 1)",
        ]
    );
}

/// Of two fences the later one reads the other, which says all of their order. The explanation calls it so too.
#[test]
fn fences_are_in_fence_order() {
    let drawing = Drawing::of(named("fences.order"));
    let of_fences = drawing.edges.iter().filter(|it| it.title.matches("fence (").count() == 2);
    let titles: Vec<&str> = of_fences.map(|it| it.title.as_str()).collect();
    assert_eq!(
        titles,
        ["fence order, in the cycle: from fence (step 4, thread 2) to fence (step 5, thread 3)"]
    );
    assert!(drawing.edges.iter().all(|it| !it.ends.contains(&"event-2".into())));
    let page = page(named("fences.order"));
    let cycle = page.named("desc")[0].text();
    let part = "; fence order: from fence (step 4, thread 2) to fence (step 5, thread 3); ";
    assert!(cycle.contains(part), "{cycle}");
}

#[test]
fn fence_order_alone_has_its_name_at_its_edges() {
    let mut found = 0;
    for reported in with_graph() {
        for drawn in Drawing::of(reported).edges {
            let is_named = drawn.relation == FENCE_ORDER;
            assert_eq!(is_named, drawn.title.starts_with("fence order"), "{}", drawn.title);
            let is_next = drawn.relation == "po";
            let of_fences = drawn.title.matches("fence (").count() == 2;
            assert_eq!(is_named, of_fences && !is_next, "{}: {}", reported.name, drawn.title);
            found += usize::from(is_named);
        }
    }
    assert!(found > 0);
}

/// A cycle may go on from a later fence than the next, which reads another one.
#[test]
fn fence_order_over_a_fence_looks_the_same() {
    let threads = "thread\nx := 1\nr0 := y\nthread\ny := 1\nfence\nthread\nfence\nfence\nr0 := x\n";
    let mut reported = Reported::on("leap.order", &format!("values 2\nlocations x y\n{threads}"));
    let of_fences = &reported.execution.as_ref().unwrap().orders[2];
    let [from, to] = [of_fences[1], of_fences[3]];
    let leap = Edge { from, to, relation: Relation::ModificationOrder };
    assert!(holds(reported.execution.as_ref().unwrap(), leap));
    reported.cycle.push(leap);
    let ends = [from, to].map(|event| format!("event-{event}"));
    let edges = Drawing::of(&reported).edges;
    let drawn = edges.iter().find(|it| it.ends == ends).unwrap();
    assert_eq!((drawn.relation.as_str(), drawn.in_cycle), (FENCE_ORDER, true));
    assert!(drawn.title.starts_with("fence order, in the cycle: "), "{}", drawn.title);
    let graph = dot(&reported.source, &reported.graph().unwrap());
    assert!(graph.contains(&format!("e{from} -> e{to} [label=\"fo\", ")), "{graph}");
}

/// The class of the sample of each entry, and its text.
fn legend_of(reported: &Reported) -> Vec<(String, String)> {
    let page = page(reported);
    let entries = page.with_class("legend")[0].elements();
    entries.map(|entry| (entry.named("g")[0].attribute("class").into(), entry.text())).collect()
}

#[test]
fn the_legend_has_fence_order_where_the_model_has_fences() {
    let entry = ("edge rf".to_string(), "fo fence order: from a fence to a later one".to_string());
    assert!(legend_of(named("fences.order")).contains(&entry));
    let without = legend_of(named("sb.order"));
    assert!(without.iter().all(|(_, text)| !text.contains("fence")), "{without:?}");
}

#[test]
fn the_legend_has_every_relation_the_cycle_and_the_boxes() {
    let entries = legend_of(named("sb.order"));
    for (_, short, name) in RELATIONS {
        let sample = format!("edge {short}");
        assert!(entries.iter().any(|(class, text)| *class == sample && text.contains(name)), "{entries:?}");
    }
    for (sample, text) in
        [("edge po cycle", "bold"), ("event stale", "dashed box"), ("event start", "round box")]
    {
        assert!(
            entries.iter().any(|(class, entry)| class == sample && entry.starts_with(text)),
            "{entries:?}"
        );
    }
    assert_eq!(entries.len(), 7);
}

#[test]
fn each_relation_has_dashes_of_its_own() {
    let style = page(&with_graph()[0]).named("style")[0].text();
    let dashes = |short: &str| {
        let start = format!(".{short} {{ --colour: var(--{short}); --dashes: ");
        style.lines().find_map(|line| line.strip_prefix(&start)).unwrap_or_else(|| panic!("{short}"))
    };
    let found: HashSet<&str> = RELATIONS.iter().map(|(_, short, _)| dashes(short)).collect();
    assert_eq!(found.len(), 4);
}

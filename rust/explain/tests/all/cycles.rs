//! The cycle of each report, held to the definitions.

use answer::Kind;
use explain::{flaw, holds, is_cycle, Edge, Execution, Relation};

use crate::reported::{models_not_robust, random_fenced, random_not_robust, Reported};

const RELATIONS: [Relation; 4] =
    [Relation::ProgramOrder, Relation::ReadsFrom, Relation::ModificationOrder, Relation::FromRead];

/// The graph of a report and the cycle in it.
fn cycle_of(Reported { name, program, report, steps, .. }: &Reported) -> (Execution, Vec<Edge>) {
    let execution = Execution::of(program, report, steps).unwrap_or_else(|| panic!("{name} is not replayed"));
    let cycle = execution.cycle().unwrap_or_else(|| panic!("{name} has no cycle"));
    (execution, cycle)
}

/// The cycle is one through the stale access, and every edge holds.
fn has_a_cycle(reported: &Reported) {
    let (execution, cycle) = cycle_of(reported);
    assert_eq!(flaw(&execution), None, "{}", reported.name);
    assert!(is_cycle(&cycle), "{}: {cycle:?}", reported.name);
    assert_eq!(cycle[0].from, execution.stale(), "{}", reported.name);
    for edge in cycle {
        assert!(holds(&execution, edge), "{}: {edge:?}", reported.name);
    }
}

#[test]
fn every_model_that_is_not_robust_has_a_cycle() {
    let models = models_not_robust();
    assert!(models.len() >= 15, "{}", models.len());
    models.iter().for_each(has_a_cycle);
}

#[test]
fn a_thousand_random_programs_have_a_cycle() {
    let programs = random_not_robust(1_000);
    assert_eq!(programs.len(), 1_000);
    programs.iter().for_each(has_a_cycle);
}

#[test]
fn programs_with_fences_have_a_cycle_and_no_stale_fence() {
    let programs = random_fenced(500);
    programs.iter().for_each(has_a_cycle);
    let mut met = 0;
    for reported in programs {
        let (execution, cycle) = cycle_of(&reported);
        let of_fences = usize::from(reported.program.locations);
        let is_fence = |event: usize| execution.events[event].location == of_fences;
        assert_eq!(execution.orders.len(), of_fences + 1, "{}", reported.name);
        assert!(!is_fence(execution.stale()), "{}", reported.name);
        met += usize::from(cycle.iter().any(|edge| is_fence(edge.from) && is_fence(edge.to)));
    }
    assert!(met >= 5, "{met}");
}

/// The relations by how easy they are to read.
const EASIEST_FIRST: [Relation; 4] =
    [Relation::ReadsFrom, Relation::ProgramOrder, Relation::ModificationOrder, Relation::FromRead];

/// How many edges lead from each event to the stale access, by what holds and not by the search; none where
/// it is not reached. From the stale access itself it is 0.
fn distances(execution: &Execution) -> Vec<Option<usize>> {
    let related = |from, to| RELATIONS.iter().any(|&relation| holds(execution, Edge { from, to, relation }));
    let all = 0..execution.events.len();
    let mut distances = vec![None; all.len()];
    let mut reached = vec![execution.stale()];
    for distance in 0.. {
        reached.iter().for_each(|&event| distances[event] = Some(distance));
        let is_next =
            |from: &usize| distances[*from].is_none() && reached.iter().any(|&to| related(*from, to));
        let next: Vec<usize> = all.clone().filter(is_next).collect();
        if next.is_empty() {
            break;
        }
        reached = next;
    }
    distances
}

/// The edges from an event by how easy they are to read: to the nearest event, but to the newest write.
fn easiest_first(execution: &Execution, from: usize) -> Vec<Edge> {
    let edges = |relation| {
        let place = |to: usize| execution.orders.concat().iter().position(|&write| write == to);
        let mut found: Vec<usize> = (0..execution.events.len()).collect();
        if matches!(relation, Relation::ModificationOrder | Relation::FromRead) {
            found.sort_by_key(|&to| std::cmp::Reverse(place(to)));
        }
        found.into_iter().map(move |to| Edge { from, to, relation }).filter(|&edge| holds(execution, edge))
    };
    EASIEST_FIRST.into_iter().flat_map(edges).collect()
}

/// At each event the easiest edge by which a shortest way leads back.
fn chosen(execution: &Execution) -> Vec<Edge> {
    let distances = distances(execution);
    let (mut cycle, mut event) = (Vec::new(), execution.stale());
    loop {
        let edges = easiest_first(execution, event);
        let edge = edges.iter().min_by_key(|edge| distances[edge.to].unwrap_or(usize::MAX)).unwrap();
        cycle.push(*edge);
        event = edge.to;
        if event == execution.stale() {
            return cycle;
        }
    }
}

#[test]
fn no_cycle_is_shorter_and_none_as_short_is_easier_to_read() {
    for reported in random_not_robust(1_000).iter().chain(&models_not_robust()) {
        let (execution, cycle) = cycle_of(reported);
        assert_eq!(cycle, chosen(&execution), "{}", reported.name);
    }
}

/// The relations other than that of an edge which hold between its events all the same: a read-modify-write is read and
/// written at once.
fn also(execution: &Execution, edge: Edge) -> &'static [Relation] {
    let is_update = |event: usize| execution.events[event].kind == Kind::Update;
    match (edge.relation, is_update(edge.from), is_update(edge.to)) {
        (Relation::ReadsFrom, true, true) => &[Relation::ModificationOrder, Relation::FromRead],
        (Relation::ReadsFrom, false, true) => &[Relation::ModificationOrder],
        (Relation::ModificationOrder, true, _) => &[Relation::FromRead],
        (Relation::FromRead, true, _) => &[Relation::ModificationOrder],
        _ => &[],
    }
}

#[test]
fn an_edge_of_another_relation_does_not_hold() {
    for reported in random_not_robust(300).iter().chain(&models_not_robust()) {
        let (execution, cycle) = cycle_of(reported);
        for edge in cycle {
            let holding =
                RELATIONS.into_iter().filter(|&relation| holds(&execution, Edge { relation, ..edge }));
            let others: Vec<Relation> = holding.filter(|&relation| relation != edge.relation).collect();
            assert_eq!(others, also(&execution, edge), "{}: {edge:?}", reported.name);
        }
    }
}

#[test]
fn an_edge_that_is_turned_round_does_not_hold() {
    for reported in random_not_robust(300).iter().chain(&models_not_robust()) {
        let (execution, cycle) = cycle_of(reported);
        for Edge { from, to, relation } in cycle {
            let turned = Edge { from: to, to: from, relation };
            assert!(!holds(&execution, turned), "{}: {turned:?}", reported.name);
            let beyond = Edge { from, to: execution.events.len(), relation };
            assert!(!holds(&execution, beyond), "{}: {beyond:?}", reported.name);
        }
    }
}

#[test]
fn a_damaged_cycle_is_none() {
    for reported in random_not_robust(300) {
        let (_, mut cycle) = cycle_of(&reported);
        for place in 0..cycle.len() {
            let mut damaged = cycle.clone();
            let edge = damaged.remove(place);
            assert!(!is_cycle(&damaged), "{}: {damaged:?}", reported.name);
            damaged.insert(place, Edge { from: edge.to, to: edge.from, ..edge });
            assert!(!is_cycle(&damaged), "{}: {damaged:?}", reported.name);
        }
        let twice = [cycle.clone(), cycle.clone()].concat();
        assert!(!is_cycle(&twice), "{}", reported.name);
        cycle.rotate_left(1);
        assert!(is_cycle(&cycle), "{}", reported.name);
        cycle.swap(0, 1);
        assert!(!is_cycle(&cycle), "{}", reported.name);
    }
    assert!(!is_cycle(&[]));
}

//! Data that is no graph is not taken for one.

use answer::Kind;
use explain::{flaw, Execution};

use crate::reported::{model, random_not_robust, Reported};

fn execution(Reported { name, program, report, steps, .. }: &Reported) -> Execution {
    Execution::of(program, report, steps).unwrap_or_else(|| panic!("{name} is not replayed"))
}

/// That of store buffering: events 0 and 1 are the starting writes of x and y, then x := 1, its read of y, y := 1 and
/// the stale read of x.
fn sb() -> Execution {
    execution(&model("sb"))
}

/// Store buffering with one thing changed has a flaw.
fn is_flawed(change: impl Fn(&mut Execution), expected: &str) {
    let mut changed = sb();
    change(&mut changed);
    let found = flaw(&changed).unwrap_or_else(|| panic!("no flaw: {changed:?}"));
    assert!(found.contains(expected), "{found}: {changed:?}");
}

#[test]
fn store_buffering_has_no_flaw() {
    assert_eq!(flaw(&sb()), None);
}

#[test]
fn no_events_are_no_graph() {
    is_flawed(|it| it.events.clear(), "no event");
    is_flawed(|it| it.events.truncate(2), "no event");
}

#[test]
fn an_event_without_its_step_is_a_flaw() {
    is_flawed(|it| it.events[2].step = None, "starting write");
    is_flawed(|it| it.events[2].step = Some(2), "starting write");
    is_flawed(|it| it.events[2].step = Some(9), "starting write");
    is_flawed(|it| it.events[2].thread = Some(1), "starting write");
    is_flawed(|it| it.events[0].written = Some(1), "starting write");
    is_flawed(|it| it.events[0].thread = Some(0), "starting write");
    is_flawed(|it| it.steps[1].event = None, "starting write");
}

#[test]
fn steps_in_another_order_are_a_flaw() {
    let swap = |it: &mut Execution| {
        it.steps.swap(0, 1);
        it.events[2].step = Some(1);
        it.events[3].step = Some(0);
    };
    is_flawed(swap, "order of their events");
    is_flawed(|it| it.steps.push(it.steps[0]), "order of their events");
}

#[test]
fn an_event_of_another_kind_is_a_flaw() {
    is_flawed(|it| it.events[3].kind = Kind::Write, "kind");
    is_flawed(|it| it.events[3].written = Some(0), "kind");
    is_flawed(|it| it.events[2].written = None, "kind");
    is_flawed(|it| it.events[3].source = None, "kind");
    is_flawed(|it| it.events[3].location = 2, "kind");
}

#[test]
fn a_read_of_another_write_is_a_flaw() {
    is_flawed(|it| it.events[3].read = Some(1), "value read");
    is_flawed(|it| it.events[3].source = Some(0), "value read");
    is_flawed(|it| it.events[3].source = Some(4), "value read");
    is_flawed(|it| it.events[3].source = Some(9), "value read");
    is_flawed(|it| it.events[3].source = Some(3), "value read");
}

#[test]
fn a_modification_order_of_other_writes_is_a_flaw() {
    is_flawed(|it| it.orders[0] = vec![0], "modification order");
    is_flawed(|it| it.orders[0] = vec![2, 0], "modification order");
    is_flawed(|it| it.orders[0] = vec![0, 2, 2], "modification order");
    is_flawed(|it| it.orders[0] = vec![0, 2, 3], "modification order");
    is_flawed(|it| it.orders.swap(0, 1), "modification order");
}

#[test]
fn an_access_by_the_newest_write_is_a_flaw() {
    is_flawed(|it| it.picked = 1, "older write");
    is_flawed(|it| it.newest = 0, "older write");
    let fresh = |it: &mut Execution| {
        it.picked = it.newest;
        it.events[5].source = Some(it.newest);
        it.events[5].read = Some(1);
    };
    is_flawed(fresh, "older write");
    is_flawed(|it| it.steps.push(explain::Taken { event: None, ..it.steps[0] }), "older write");
}

#[test]
fn an_update_apart_from_what_it_reads_is_a_flaw() {
    let mut met = 0;
    for reported in random_not_robust(200) {
        let mut execution = execution(&reported);
        let is_update = |write: &usize| execution.events[*write].kind == Kind::Update;
        let place = execution.orders.iter().enumerate().find_map(|(location, order)| {
            let next = (2..order.len()).find(|&place| is_update(&order[place]))?;
            Some((location, next))
        });
        let Some((location, place)) = place else { continue };
        execution.orders[location].swap(place - 1, place);
        assert!(flaw(&execution).is_some_and(|it| it.contains("read-modify-write")), "{}", reported.name);
        met += 1;
    }
    assert!(met > 20, "{met}");
}

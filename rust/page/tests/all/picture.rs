//! What the picture says: its boxes, their texts and the headings.

use std::collections::HashSet;

use answer::Kind;
use explain::Event;

use crate::drawing::{page, Drawing};
use crate::reported::{named, with_graph, Reported};
use crate::xml::Element;

#[test]
fn every_event_has_its_box_with_its_text() {
    for reported in with_graph() {
        let Reported { name, source, execution, .. } = reported;
        let execution = execution.as_ref().unwrap();
        let drawing = Drawing::of(reported);
        assert_eq!(drawing.boxes.len(), reported.events_drawn().len(), "{name}");
        for (place, drawn) in reported.events_drawn().into_iter().zip(&drawing.boxes) {
            assert_eq!(drawn.id, format!("event-{place}"), "{name}");
            let event = &execution.events[place];
            let location = source.locations.get(event.location).map_or("", String::as_str);
            let access = match event {
                Event { kind: Kind::Update, read: Some(0), written: Some(0), .. } if location.is_empty() => {
                    "fence".into()
                }
                Event { kind: Kind::Read, read: Some(read), .. } => format!("R {location} = {read}"),
                Event { kind: Kind::Write, written: Some(written), .. } => {
                    format!("W {location} = {written}")
                }
                Event { read: Some(read), written: Some(written), .. } => {
                    format!("M {location}: {read} → {written}")
                }
                _ => panic!("{event:?}"),
            };
            assert_eq!(drawn.access, access, "{name}");
            assert!(drawn.title.contains(&access), "{name}: {}", drawn.title);
        }
    }
}

#[test]
fn a_box_says_where_its_event_comes_from() {
    let sb = named("sb.order");
    let found = Drawing::of(sb).boxes;
    let found: Vec<_> = found.iter().map(|it| (it.origin.as_str(), it.title.as_str())).collect();
    assert_eq!(
        found,
        [
            ("starting write", "Starting write W x = 0"),
            ("starting write", "Starting write W y = 0"),
            ("step 1, line 7", "Step 1 of thread 1, line 7 (x := 1): W x = 1"),
            ("step 2, line 8", "Step 2 of thread 1, line 8 (r0 := y): R y = 0"),
            ("step 3, line 10", "Step 3 of thread 2, line 10 (y := 1): W y = 1"),
            (
                "step 4, line 11",
                "Step 4 of thread 2, line 11 (r0 := x): R x = 0. This is the stale access: it goes by an \
                 older write than W x = 1 (step 1, thread 1), the newest.",
            ),
        ]
    );
}

#[test]
fn a_fence_is_shown_by_its_name_and_has_no_starting_write() {
    let found = Drawing::of(named("fences.order")).boxes;
    let found: Vec<_> = found.iter().map(|it| (it.access.as_str(), it.title.as_str())).collect();
    assert_eq!(found[..2], [("W x = 0", "Starting write W x = 0"), ("W y = 0", "Starting write W y = 0")]);
    assert_eq!(found[2], ("W x = 1", "Step 1 of thread 1, line 4 (x := 1): W x = 1"));
    assert_eq!(found[5], ("fence", "Step 4 of thread 2, line 8 (fence): fence"));
    assert_eq!(found[6], ("fence", "Step 5 of thread 3, line 10 (fence): fence"));
    assert_eq!(found.len(), 8);
    let page = page(named("fences.order"));
    assert_eq!(
        page.with_class("graph")[0].attribute("aria-label"),
        "Execution graph: 6 accesses in 3 columns, one for each thread, below 2 starting writes"
    );
    let cells: Vec<String> = page.named("tr")[4].elements().map(Element::text).collect();
    assert_eq!(cells, ["4", "2", "8", "fence", "fence"]);
}

#[test]
fn steps_count_local_lines_too_as_the_table_does() {
    let long = named("long-run.order");
    let boxes = Drawing::of(long).boxes;
    assert_eq!([&boxes[2].origin, &boxes[3].origin], ["step 47, line 13", "step 97, line 13"]);
    assert_eq!(page(long).named("tbody")[0].elements().count(), 706);
}

#[test]
fn the_stale_access_alone_is_dashed_and_the_starting_writes_are_round() {
    for reported in with_graph() {
        let drawing = Drawing::of(reported);
        let classes: Vec<&str> = drawing.boxes.iter().map(|it| it.class.as_str()).collect();
        let starts = reported.source.locations.len();
        let mut expected = vec!["event"; classes.len()];
        expected[..starts].fill("event start");
        expected[classes.len() - 1] = "event stale";
        assert_eq!(classes, expected, "{}", reported.name);
    }
    let page = page(named("crowd.order"));
    assert_eq!(page.with_class("mark").into_iter().map(Element::text).collect::<Vec<_>>(), ["stale"]);
    let style = page.named("style")[0].text();
    let dashed = |line: &&str| line.contains("stroke-dasharray: 7 4");
    assert_eq!(style.lines().filter(dashed).count(), 1);
    assert!(style.lines().find(dashed).unwrap().starts_with(".event.stale rect {"));
}

#[test]
fn every_thread_has_its_heading() {
    for reported in with_graph() {
        let threads = reported.source.program.threads.len();
        let expected: HashSet<String> = (1..=threads).map(|thread| format!("thread {thread}")).collect();
        let found: HashSet<String> = Drawing::of(reported).headings.into_iter().collect();
        assert_eq!(found, expected, "{}", reported.name);
    }
}

/// The heights of the starting writes, from the first on.
fn heights(reported: &Reported) -> Vec<i32> {
    let starts = reported.source.locations.len();
    Drawing::of(reported).boxes[..starts].iter().map(|it| it.area.y[0]).collect()
}

#[test]
fn many_starting_writes_stand_in_tiers_and_few_in_one_row() {
    assert_eq!(heights(named("crowd.order")), [0; 8]);
    assert_eq!(heights(named("page-ring-sc.order")), [0, 50, 0, 50, 0, 50, 0, 50, 0, 50, 0]);
    assert_eq!(heights(named("sixteen.order")), [0, 50, 100, 150].repeat(4));
    // In one row they would need 16 times 160.
    let [left, right] = Drawing::of(named("sixteen.order")).area.x;
    assert!(right - left < 1_400, "{left} to {right}");
}

#[test]
fn the_crowd_is_one() {
    let crowd = named("crowd.order");
    let events = &crowd.execution.as_ref().unwrap().events;
    assert_eq!((crowd.source.program.threads.len(), events.len()), (8, 61));
}

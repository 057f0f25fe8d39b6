//! The parts of the page beside the picture.

use std::collections::HashSet;

use answer::Report;

use crate::drawing::page;
use crate::reported::{models, named, with_graph, Reported};
use crate::xml::{parse, Element};

fn with_id<'a>(page: &'a Element, id: &str) -> &'a Element {
    page.all().into_iter().find(|element| element.attribute("id") == id).unwrap_or_else(|| panic!("no {id}"))
}

fn headings(page: &Element) -> Vec<String> {
    page.named("h2").into_iter().map(Element::text).collect()
}

#[test]
fn every_page_is_well_formed_with_ids_of_their_own_and_links_that_lead_somewhere() {
    for reported in models().iter().chain(with_graph()) {
        let page = page(reported);
        let ids: Vec<&str> =
            page.all().into_iter().map(|it| it.attribute("id")).filter(|id| !id.is_empty()).collect();
        let known: HashSet<&str> = ids.iter().copied().collect();
        assert_eq!(ids.len(), known.len(), "{}", reported.name);
        for link in page.named("a") {
            assert!(known.contains(link.attribute("href").strip_prefix('#').unwrap()), "{link:?}");
        }
        for labelled in page.named("section") {
            assert!(known.contains(labelled.attribute("aria-labelledby")), "{labelled:?}");
        }
    }
}

#[test]
fn every_model_has_its_verdict_and_its_lines() {
    for reported in models() {
        let page = page(&reported);
        assert_eq!(page.attribute("lang"), "en");
        let verdict = with_id(&page, "verdict").text();
        assert_eq!(verdict, page::verdict(&reported.source, &reported.report), "{}", reported.name);
        let start = match reported.report {
            Report::Robust { .. } => "Robust: ",
            Report::NotRobust { .. } => "Not robust: after these ",
            _ => "Undecided: ",
        };
        assert!(verdict.starts_with(start), "{}: {verdict}", reported.name);
        for (number, text) in reported.text.lines().enumerate() {
            assert_eq!(with_id(&page, &format!("line-{}", number + 1)).text(), text, "{}", reported.name);
        }
    }
}

#[test]
fn without_a_graph_the_rest_is_there() {
    let text = "values 2\nlocations x\nthread\n  x := 1\n";
    let robust = Reported::on("one.order", text);
    for report in [robust.report, Report::Full { count: 3 }, Report::Refused { number: 9 }] {
        let page = parse(&Reported { report, ..Reported::on("one.order", text) }.html("")).unwrap();
        assert_eq!(headings(&page), ["Model"]);
        assert_eq!(page.named("svg").len() + page.named("table").len(), 0);
        assert_eq!(with_id(&page, "verdict").text(), page::verdict(&robust.source, &report));
        assert_eq!(page.named("footer")[0].named("code")[0].text(), report.to_string());
    }
    let explained = parse(&robust.html("It is.\n")).unwrap();
    assert_eq!(headings(&explained), ["Explanation", "Model"]);
    assert_eq!(headings(&page(named("crowd.order"))), ["Execution graph", "Steps", "Model"]);
}

/// The cells of a row.
fn cells(row: &Element) -> Vec<String> {
    row.elements().map(Element::text).collect()
}

#[test]
fn the_table_has_the_steps_and_then_the_stale_access() {
    let sb = named("sb.order");
    let page = page(sb);
    let rows: Vec<Vec<String>> = page.named("tr").into_iter().map(cells).collect();
    assert_eq!(
        rows,
        [
            ["step", "thread", "line", "statement", "access"],
            ["1", "1", "7", "x := 1", "W x = 1"],
            ["2", "1", "8", "r0 := y", "R y = 0"],
            ["3", "2", "10", "y := 1", "W y = 1"],
            ["4, stale", "2", "11", "r0 := x", "R x = 0"],
        ]
    );
    assert!(page.named("th").iter().all(|it| ["col", "row"].contains(&it.attribute("scope"))));
    assert_eq!(page.with_class("stale").iter().filter(|it| it.name == "tr").count(), 1);
}

#[test]
fn each_row_of_a_table_names_a_line_that_has_its_text() {
    for reported in with_graph() {
        let page = page(reported);
        let rows = page.named("tbody")[0].elements().count();
        assert_eq!(rows, reported.execution.as_ref().unwrap().steps.len(), "{}", reported.name);
        for row in page.named("tbody")[0].elements() {
            let [_, _, line, text, access] = &cells(row)[..] else { panic!("{row:?}") };
            let written = with_id(&page, &format!("line-{line}")).text();
            assert!(!text.is_empty() && written.contains(text.as_str()), "{}: {written}", reported.name);
            assert_eq!(access.starts_with("none"), row.with_class("local").len() == 1);
        }
    }
}

#[test]
fn what_scrolls_is_reached_by_keys_and_has_a_name() {
    let page = page(named("crowd.order"));
    let scrolling = page.with_class("scroll");
    assert_eq!(scrolling.len(), 2);
    for part in scrolling {
        assert_eq!((part.attribute("tabindex"), part.attribute("role")), ("0", "region"));
        assert!(!part.attribute("aria-label").is_empty());
    }
}

#[test]
fn each_part_of_the_picture_is_there_for_screen_readers() {
    let page = page(named("crowd.order"));
    let graph = page.with_class("graph")[0];
    assert_ne!(graph.attribute("role"), "img", "it would hide its parts");
    assert_eq!(
        graph.attribute("aria-label"),
        "Execution graph: 53 accesses in 8 columns, one for each thread, below 8 starting writes"
    );
    assert_eq!(
        graph.named("desc")[0].text(),
        [
            "The cycle: from-read: from R f = 0 (step 53, thread 8, stale) to W f = 1 (step 50, thread 1)",
            "program order: from W f = 1 (step 50, thread 1) to R g = 0 (step 51, thread 1)",
            "from-read: from R g = 0 (step 51, thread 1) to W g = 1 (step 52, thread 8)",
            "program order: from W g = 1 (step 52, thread 8) to R f = 0 (step 53, thread 8, stale)",
        ]
        .join("; ")
    );
    for part in graph.with_class("event").into_iter().chain(graph.with_class("edge")) {
        let title = part.elements().next().unwrap();
        assert_eq!((part.attribute("role"), title.name.as_str()), ("img", "title"));
        assert!(!title.text().is_empty());
    }
}

//! Pages and graphs are known by how they start.

use answer::Report;
use page::{dot, is_graph, is_page, no_graph};

use crate::reported::{models, with_graph};

fn start(text: &str) -> &[u8] {
    &text.as_bytes()[..text.len().min(1_000)]
}

#[test]
fn every_page_and_every_graph_is_known_and_one_is_not_the_other() {
    for reported in models().iter().chain(with_graph()) {
        let page = reported.html("");
        assert!(is_page(start(&page)) && !is_graph(start(&page)), "{page}");
        let graph = reported.graph().map(|graph| dot(&reported.source, &graph));
        let graph = graph.unwrap_or_else(|| no_graph(&reported.report));
        assert!(is_graph(start(&graph)) && !is_page(start(&graph)), "{graph}");
    }
    assert!(is_graph(no_graph(&Report::Full { count: usize::MAX }).as_bytes()));
}

#[test]
fn what_others_made_is_not() {
    for text in ["", "<!DOCTYPE html>\n<html lang=\"en\">\n", "digraph execution {\n  a -> b;\n}\n"] {
        assert!(!is_page(text.as_bytes()) && !is_graph(text.as_bytes()), "{text}");
    }
    assert!(!is_graph(b"digraph order {\n  label=\"my order\";\n  a -> b;\n}\n"));
}

//! What was written here, by how it starts: nothing else is to be written over.

/// The start of every page.
const PAGE: &str = "<!DOCTYPE html>\n<html xmlns=\"http://www.w3.org/1999/xhtml\" lang=\"en\">\n<head>\n\
    <meta charset=\"utf-8\" />\n<meta http-equiv=\"Content-Security-Policy\" content=\"default-src &#39;none&#39;; ";

/// The start of every graph.
const GRAPH: &str = "digraph execution {\n  graph [layout=\"nop2\", fontname=\"sans-serif\"];\n";

/// The start and the end of what stands for a graph where there is none.
pub const NO_GRAPH: [&str; 2] = ["digraph order {\n  label=\"", ": only NR has a graph\";\n}\n"];

/// Whether a file that starts so, with its first 1,000 bytes or all, is a page of [`Page::html`](crate::Page::html).
pub fn is_page(start: &[u8]) -> bool {
    start.starts_with(PAGE.as_bytes())
}

/// The same of a graph of [`dot`](crate::dot()) or [`no_graph`](crate::no_graph).
pub fn is_graph(start: &[u8]) -> bool {
    let [first, last] = NO_GRAPH.map(str::as_bytes);
    start.starts_with(GRAPH.as_bytes()) || start.starts_with(first) && start.ends_with(last)
}

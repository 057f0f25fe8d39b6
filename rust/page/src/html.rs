//! The page.

use crate::element::{element, Element};
use crate::legend::legend;
use crate::picture::{svg, Picture};
use crate::steps::table;
use crate::style::style;
use crate::verdict::{head, reason};
use crate::words::Words;
use crate::{Graph, Page};

/// Nothing is run and nothing is asked for from elsewhere, whatever stands in the model.
const POLICY: &str =
    "default-src 'none'; style-src 'unsafe-inline'; img-src data:; base-uri 'none'; form-action 'none'";

impl Page<'_> {
    /// The page as one file, which is HTML and XML at once.
    pub fn html(&self) -> String {
        let body = element("body").lines([self.header(), self.main(), self.footer()]);
        let page = element("html").with("xmlns", "http://www.w3.org/1999/xhtml").with("lang", "en");
        format!("<!DOCTYPE html>\n{}\n", page.lines([self.head(), body]))
    }

    fn head(&self) -> Element {
        let meta = |name, content| element("meta").with("name", name).with("content", content);
        element("head").lines([
            element("meta").with("charset", "utf-8"),
            element("meta").with("http-equiv", "Content-Security-Policy").with("content", POLICY),
            meta("viewport", "width=device-width, initial-scale=1"),
            meta("color-scheme", "light dark"),
            // Without one a browser asks the server for an icon.
            element("link").with("rel", "icon").with("href", "data:,"),
            element("title").text(&format!("{}: {}", self.name, head(self.report).to_lowercase())),
            element("style").sheet(&style()),
        ])
    }

    fn header(&self) -> Element {
        let verdict = element("strong").text(&format!("{}:", head(self.report)));
        let reason = reason(self.source, self.report);
        let verdict = element("p").with("id", "verdict").child(verdict).text(&format!(" {reason}"));
        element("header").lines([element("h1").text(self.name), verdict])
    }

    fn main(&self) -> Element {
        let graph = self.graph.as_ref();
        let explanation = (!self.words.is_empty()).then(|| element("pre").text(self.words));
        let parts = [
            ("graph", "Execution graph", graph.map(|graph| self.picture(graph))),
            ("explanation", "Explanation", explanation),
            ("steps", "Steps", graph.map(|graph| self.steps(graph))),
            ("model", "Model", Some(self.model())),
        ];
        let sections = parts.into_iter().filter_map(|(id, heading, part)| Some(section(id, heading, part?)));
        element("main").lines(sections)
    }

    fn picture(&self, graph: &Graph) -> Element {
        let picture = svg(&Picture::of(self.source, graph));
        let picture = scrolling("The execution graph, to scroll", picture);
        element("div").with("class", "picture").lines([legend(self.source.program.has_fence()), picture])
    }

    fn steps(&self, graph: &Graph) -> Element {
        let words = Words { source: self.source, execution: graph.execution };
        scrolling("The steps, to scroll", table(&words))
    }

    /// The text with its lines numbered; each can be linked to.
    fn model(&self) -> Element {
        let line = |(place, text): (usize, &str)| {
            element("li").with("id", format!("line-{}", place + 1)).child(element("code").text(text))
        };
        element("ol").with("class", "model").lines(self.text.lines().enumerate().map(line))
    }

    fn footer(&self) -> Element {
        let report = element("code").text(&self.report.to_string());
        element("footer").child(element("p").text("The report of the order checker: ").child(report))
    }
}

fn section(id: &str, heading: &str, part: Element) -> Element {
    let heading_id = format!("{id}-heading");
    let heading = element("h2").with("id", &heading_id).text(heading);
    element("section").with("id", id).with("aria-labelledby", heading_id).lines([heading, part])
}

/// A part that scrolls where it is too large, also by keys.
fn scrolling(name: &str, part: Element) -> Element {
    let scrolling = element("div").with("class", "scroll").with("role", "region");
    scrolling.with("aria-label", name).with("tabindex", 0).lines([part])
}

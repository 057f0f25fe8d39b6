//! Elements of HTML and SVG. All text in them is escaped.

use std::fmt::{self, Display, Formatter, Write};

use crate::escape::escaped;

/// An element that is being made.
pub struct Element {
    name: &'static str,
    attributes: String,
    content: String,
}

/// Elements that have nothing in them, and no end.
const EMPTY: [&str; 4] = ["meta", "link", "rect", "path"];

/// An element without attributes and content.
pub fn element(name: &'static str) -> Element {
    Element { name, attributes: String::new(), content: String::new() }
}

impl Element {
    /// The element with one more attribute.
    pub fn with(mut self, name: &str, value: impl Display) -> Element {
        write!(self.attributes, " {name}=\"{}\"", escaped(&value.to_string())).expect("a string takes all");
        self
    }

    /// The element with several more attributes.
    pub fn with_all<const N: usize>(self, attributes: [(&str, i32); N]) -> Element {
        attributes.into_iter().fold(self, |element, (name, value)| element.with(name, value))
    }

    /// The element with more text in it.
    pub fn text(mut self, text: &str) -> Element {
        self.content += &escaped(text);
        self
    }

    /// The element with a style sheet in it, in which nothing is escaped.
    pub fn sheet(mut self, style: &str) -> Element {
        self.content += style;
        self
    }

    /// The element with another one in it.
    pub fn child(mut self, child: Element) -> Element {
        self.content += &child.to_string();
        self
    }

    /// The element with others in it, each on lines of its own.
    pub fn lines(mut self, children: impl IntoIterator<Item = Element>) -> Element {
        self.content.push('\n');
        for child in children {
            self = self.child(child);
            self.content.push('\n');
        }
        self
    }
}

impl Display for Element {
    fn fmt(&self, to: &mut Formatter) -> fmt::Result {
        let Element { name, attributes, content } = self;
        if EMPTY.contains(name) {
            write!(to, "<{name}{attributes} />")
        } else {
            write!(to, "<{name}{attributes}>{content}</{name}>")
        }
    }
}

#[cfg(test)]
mod tests {
    use super::element;

    #[test]
    fn texts_and_attributes_are_escaped() {
        let link = element("a").with("href", "\"&").text("<b>").child(element("i").text("&"));
        assert_eq!(link.to_string(), "<a href=\"&quot;&amp;\">&lt;b&gt;<i>&amp;</i></a>");
    }

    #[test]
    fn only_what_is_always_empty_has_no_end() {
        let row = element("tr").lines([element("td"), element("rect").with_all([("x", 1), ("y", -2)])]);
        assert_eq!(row.to_string(), "<tr>\n<td></td>\n<rect x=\"1\" y=\"-2\" />\n</tr>");
    }
}

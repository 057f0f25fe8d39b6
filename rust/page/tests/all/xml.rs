//! A reader of XML, which takes no text that is not well-formed.

/// An element with what stands in it.
#[derive(Debug, Default, PartialEq)]
pub struct Element {
    pub name: String,
    attributes: Vec<(String, String)>,
    pub children: Vec<Node>,
}

#[derive(Debug, PartialEq)]
pub enum Node {
    Element(Element),
    Text(String),
}

impl Element {
    /// The value of an attribute; empty where there is none.
    pub fn attribute(&self, name: &str) -> &str {
        self.attributes.iter().find(|(known, _)| known == name).map_or("", |(_, value)| value)
    }

    pub fn number(&self, name: &str) -> i32 {
        self.attribute(name).parse().unwrap_or_else(|_| panic!("{name} of {self:?}"))
    }

    pub fn has_class(&self, class: &str) -> bool {
        self.attribute("class").split(' ').any(|it| it == class)
    }

    /// Its names of attributes, with their values.
    pub fn attributes(&self) -> impl Iterator<Item = (&str, &str)> {
        self.attributes.iter().map(|(name, value)| (name.as_str(), value.as_str()))
    }

    pub fn elements(&self) -> impl Iterator<Item = &Element> {
        self.children.iter().filter_map(|child| match child {
            Node::Element(element) => Some(element),
            Node::Text(_) => None,
        })
    }

    /// Itself and all elements in it, in their order.
    pub fn all(&self) -> Vec<&Element> {
        let inner = self.elements().flat_map(Element::all);
        [self].into_iter().chain(inner).collect()
    }

    /// The elements in it that have the class.
    pub fn with_class(&self, class: &str) -> Vec<&Element> {
        self.all().into_iter().filter(|element| element.has_class(class)).collect()
    }

    /// The elements in it of this name.
    pub fn named(&self, name: &str) -> Vec<&Element> {
        self.all().into_iter().filter(|element| element.name == name).collect()
    }

    /// All text in it.
    pub fn text(&self) -> String {
        let text = |child: &Node| match child {
            Node::Element(element) => element.text(),
            Node::Text(text) => text.clone(),
        };
        self.children.iter().map(text).collect()
    }
}

/// The one element that the text is, after its doctype, or where it goes wrong.
pub fn parse(text: &str) -> Result<Element, String> {
    let mut rest = text.strip_prefix("<!DOCTYPE html>\n").unwrap_or(text);
    let allowed = |c: char| matches!(c, '\n' | '\t') || !c.is_control();
    if let Some(bad) = text.chars().find(|&c| !allowed(c)) {
        return Err(format!("the character {bad:?}"));
    }
    let element = element(&mut rest)?;
    if rest.trim().is_empty() {
        Ok(element)
    } else {
        Err(wrong("the end", rest))
    }
}

fn wrong(expected: &str, rest: &str) -> String {
    format!("expected {expected} at {:?}", rest.chars().take(60).collect::<String>())
}

fn pass(rest: &mut &str, sign: &str) -> Result<(), String> {
    *rest = rest.strip_prefix(sign).ok_or_else(|| wrong(sign, rest))?;
    Ok(())
}

fn name(rest: &mut &str) -> Result<String, String> {
    let is_part = |c: char| c.is_ascii_alphanumeric() || c == '-';
    let length =
        rest.find(|c| !is_part(c)).filter(|&length| length > 0).ok_or_else(|| wrong("a name", rest))?;
    let (name, after) = rest.split_at(length);
    *rest = after;
    Ok(name.into())
}

fn element(rest: &mut &str) -> Result<Element, String> {
    pass(rest, "<")?;
    let mut element = Element { name: name(rest)?, ..Element::default() };
    while rest.starts_with([' ', '\n']) {
        *rest = rest.trim_start();
        if rest.starts_with('/') {
            pass(rest, "/>")?;
            return Ok(element);
        }
        let (name, value) = attribute(rest)?;
        if element.attributes.iter().any(|(known, _)| *known == name) {
            return Err(wrong(&format!("no second {name}"), rest));
        }
        element.attributes.push((name, value));
    }
    pass(rest, ">")?;
    while !rest.starts_with("</") {
        element.children.push(node(rest)?);
    }
    pass(rest, &format!("</{}>", element.name))?;
    Ok(element)
}

fn attribute(rest: &mut &str) -> Result<(String, String), String> {
    let name = name(rest)?;
    pass(rest, "=\"")?;
    let (value, after) = rest.split_once('"').ok_or_else(|| wrong("a quotation mark", rest))?;
    *rest = after;
    Ok((name, plain(value)?))
}

fn node(rest: &mut &str) -> Result<Node, String> {
    let length = rest.find('<').ok_or_else(|| wrong("an end", rest))?;
    if length == 0 {
        return element(rest).map(Node::Element);
    }
    let (text, after) = rest.split_at(length);
    *rest = after;
    plain(text).map(Node::Text)
}

/// Text without its escapes.
fn plain(text: &str) -> Result<String, String> {
    let mut parts = text.split('&');
    let mut plain = parts.next().unwrap_or_default().to_string();
    for part in parts {
        let (escape, after) = part.split_once(';').ok_or_else(|| wrong("an escape", part))?;
        plain.push(match escape {
            "amp" => '&',
            "lt" => '<',
            "gt" => '>',
            "quot" => '"',
            "#39" => '\'',
            _ => return Err(wrong("a known escape", part)),
        });
        plain.push_str(after);
    }
    if plain.contains('<') && !text.contains("&lt;") {
        return Err(wrong("no bare <", text));
    }
    Ok(plain)
}

#[test]
fn what_is_well_formed_is_read() {
    let read = parse("<!DOCTYPE html>\n<a b=\"&lt;c\">d &amp; e<f /><g>h</g></a>\n").unwrap();
    assert_eq!((read.name.as_str(), read.attribute("b"), read.text()), ("a", "<c", "d & eh".into()));
    assert_eq!(read.elements().map(|it| it.name.as_str()).collect::<Vec<_>>(), ["f", "g"]);
}

#[test]
fn what_is_not_well_formed_is_not_read() {
    for text in [
        "",
        "a",
        "<a>",
        "<a></b>",
        "<a><b></a></b>",
        "<a/><b/>",
        "<a b></a>",
        "<a b=c></a>",
        "<a b=\"c></a>",
        "<a b=\"1\" b=\"2\"></a>",
        "<a>&</a>",
        "<a>&nbsp;</a>",
        "<a>&amp</a>",
        "<a><</a>",
        "<a b=\"<\"></a>",
        "<a>\u{1}</a>",
        "<a></a>b",
    ] {
        assert!(parse(text).is_err(), "{text}");
    }
}

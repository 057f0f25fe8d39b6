//! JSON values, and their text (RFC 8259).

use std::fmt::{self, Display, Formatter, Write};

/// A JSON value. Its text, which `Display` writes, stands on one line.
#[derive(Clone, Debug, PartialEq, Eq)]
pub enum Json {
    /// `null`
    Null,
    /// `true` or `false`
    Bool(bool),
    /// A whole number.
    Number(usize),
    /// A string.
    Text(String),
    /// An array.
    List(Vec<Json>),
    /// An object, its members in this order.
    Object(Vec<(&'static str, Json)>),
}

impl Json {
    /// The list of what each of these is.
    pub fn list<T>(of: impl IntoIterator<Item = T>, json: impl FnMut(T) -> Json) -> Json {
        Json::List(of.into_iter().map(json).collect())
    }
}

impl Display for Json {
    fn fmt(&self, to: &mut Formatter) -> fmt::Result {
        match self {
            Json::Null => to.write_str("null"),
            Json::Bool(yes) => write!(to, "{yes}"),
            Json::Number(number) => write!(to, "{number}"),
            Json::Text(text) => quoted(to, text),
            Json::List(values) => separated(to, '[', values, |to, value| write!(to, "{value}"), ']'),
            Json::Object(members) => {
                let member = |to: &mut Formatter, (name, value): &(&str, Json)| {
                    quoted(to, name)?;
                    write!(to, ":{value}")
                };
                separated(to, '{', members, member, '}')
            }
        }
    }
}

fn separated<T>(
    to: &mut Formatter,
    open: char,
    things: &[T],
    each: impl Fn(&mut Formatter, &T) -> fmt::Result,
    close: char,
) -> fmt::Result {
    to.write_char(open)?;
    for (place, thing) in things.iter().enumerate() {
        if place > 0 {
            to.write_char(',')?;
        }
        each(to, thing)?;
    }
    to.write_char(close)
}

/// "All Unicode characters may be placed within the quotation marks, except for the characters that MUST be escaped:
/// quotation mark, reverse solidus, and the control characters".
fn quoted(to: &mut Formatter, text: &str) -> fmt::Result {
    to.write_char('"')?;
    for character in text.chars() {
        match character {
            '"' | '\\' => write!(to, "\\{character}")?,
            '\0'..='\u{1f}' => write!(to, "\\u{:04x}", u32::from(character))?,
            _ => to.write_char(character)?,
        }
    }
    to.write_char('"')
}

impl From<usize> for Json {
    fn from(number: usize) -> Json {
        Json::Number(number)
    }
}

impl From<u8> for Json {
    fn from(number: u8) -> Json {
        Json::Number(number.into())
    }
}

impl From<&str> for Json {
    fn from(text: &str) -> Json {
        Json::Text(text.into())
    }
}

impl<T: Into<Json>> From<Option<T>> for Json {
    fn from(value: Option<T>) -> Json {
        value.map_or(Json::Null, Into::into)
    }
}

//! A small reader of JSON, for tests: of what the crate writes and no more.

/// A value of JSON. A word is `null`, `true` or `false`.
#[derive(Clone, Debug, PartialEq, Eq)]
pub enum Value {
    Word(&'static str),
    Number(usize),
    Text(String),
    List(Vec<Value>),
    Object(Vec<(String, Value)>),
}

impl Value {
    pub fn get(&self, name: &str) -> &Value {
        let Value::Object(members) = self else { panic!("{self:?} is no object") };
        let found = members.iter().find(|(other, _)| other == name);
        &found.unwrap_or_else(|| panic!("no {name}: {self:?}")).1
    }

    pub fn names(&self) -> Vec<&str> {
        let Value::Object(members) = self else { panic!("{self:?} is no object") };
        members.iter().map(|(name, _)| name.as_str()).collect()
    }

    pub fn items(&self) -> &[Value] {
        let Value::List(items) = self else { panic!("{self:?} is no list") };
        items
    }

    pub fn at(&self, place: usize) -> &Value {
        &self.items()[place]
    }

    /// The number of this name; none for null.
    pub fn number(&self, name: &str) -> Option<usize> {
        match self.get(name) {
            Value::Number(number) => Some(*number),
            Value::Word("null") => None,
            other => panic!("{name}: {other:?}"),
        }
    }

    pub fn numbers(&self) -> Vec<usize> {
        let number = |item: &Value| match item {
            Value::Number(number) => *number,
            other => panic!("{other:?} is no number"),
        };
        self.items().iter().map(number).collect()
    }

    pub fn text_of(&self, name: &str) -> &str {
        let Value::Text(text) = self.get(name) else { panic!("{name} of {self:?} is no text") };
        text
    }
}

/// The value that the text is, if it is one.
pub fn read(text: &str) -> Option<Value> {
    let mut rest = text;
    let value = value(&mut rest)?;
    rest.is_empty().then_some(value)
}

/// Takes the start off the rest, if it starts so.
fn take(rest: &mut &str, start: &str) -> bool {
    let found = rest.strip_prefix(start);
    *rest = found.unwrap_or(rest);
    found.is_some()
}

fn value(rest: &mut &str) -> Option<Value> {
    for word in ["null", "true", "false"] {
        if take(rest, word) {
            return Some(Value::Word(word));
        }
    }
    match rest.chars().next()? {
        '"' => text(rest).map(Value::Text),
        '[' => several(rest, "[", "]", value).map(Value::List),
        '{' => several(rest, "{", "}", member).map(Value::Object),
        _ => number(rest),
    }
}

fn number(rest: &mut &str) -> Option<Value> {
    let end = rest.find(|character: char| !character.is_ascii_digit()).unwrap_or(rest.len());
    let (digits, after) = rest.split_at(end);
    *rest = after;
    digits.parse().ok().map(Value::Number)
}

fn member(rest: &mut &str) -> Option<(String, Value)> {
    let name = text(rest)?;
    take(rest, ":").then_some(())?;
    Some((name, value(rest)?))
}

fn several<T>(
    rest: &mut &str,
    open: &str,
    close: &str,
    one: impl Fn(&mut &str) -> Option<T>,
) -> Option<Vec<T>> {
    take(rest, open).then_some(())?;
    let mut found = Vec::new();
    if take(rest, close) {
        return Some(found);
    }
    loop {
        found.push(one(rest)?);
        if take(rest, close) {
            return Some(found);
        }
        take(rest, ",").then_some(())?;
    }
}

fn text(rest: &mut &str) -> Option<String> {
    take(rest, "\"").then_some(())?;
    let mut found = String::new();
    loop {
        let character = rest.chars().next()?;
        *rest = &rest[character.len_utf8()..];
        match character {
            '"' => return Some(found),
            '\\' => found.push(escaped(rest)?),
            '\0'..='\u{1f}' => return None,
            _ => found.push(character),
        }
    }
}

fn escaped(rest: &mut &str) -> Option<char> {
    for (escape, character) in [("\"", '"'), ("\\", '\\'), ("/", '/')] {
        if take(rest, escape) {
            return Some(character);
        }
    }
    take(rest, "u").then_some(())?;
    let digits = rest.get(..4)?;
    *rest = &rest[4..];
    char::from_u32(u32::from_str_radix(digits, 16).ok()?)
}

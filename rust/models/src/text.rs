//! From bytes to a text that shows all that it says.

use program::limits::LONGEST_INPUT;

use crate::mistake::{Mistake, Place};

/// What some editors put in front of a text in UTF-8; it is no part of the text.
const BYTE_ORDER_MARK: &[u8] = "\u{feff}".as_bytes();

/// The bytes as text. More of them than a model has are not looked at.
pub fn text_of(bytes: &[u8]) -> Result<&str, Mistake> {
    if bytes.len() > LONGEST_INPUT {
        return Err(Mistake {
            place: Place::START,
            expected: "a text of at most 1 MiB".into(),
            found: format!("one of {} bytes", bytes.len()),
            hint: None,
        });
    }
    let bytes = bytes.strip_prefix(BYTE_ORDER_MARK).unwrap_or(bytes);
    let text = std::str::from_utf8(bytes).map_err(|error| {
        let (good, bad) = bytes.split_at(error.valid_up_to());
        Mistake {
            place: Place::after(&String::from_utf8_lossy(good)),
            expected: "text in UTF-8".into(),
            found: format!("the byte {}", bad[0]),
            hint: None,
        }
    })?;
    first_hidden(text).map_or(Ok(text), Err)
}

/// The first hidden character, in a comment too: an editor may show other lines than those that are assembled.
fn first_hidden(text: &str) -> Option<Mistake> {
    let is_line_end = |offset: usize| text[offset..].starts_with("\r\n");
    let mut characters = text.char_indices();
    let (offset, character) = characters.find(|&(offset, c)| is_hidden(c) && !is_line_end(offset))?;
    Some(Mistake {
        place: Place::after(&text[..offset]),
        expected: "text without control or hidden characters".into(),
        found: shown(character),
        hint: starts_line(character).then(|| "a line ends with LF, or with CR and LF".into()),
    })
}

/// Whether a character is not seen in a text, or changes how the text around it is seen: control characters but LF and
/// tab, what starts a new line, has no width or turns the direction of a text, and what is no character.
pub fn is_hidden(character: char) -> bool {
    match character {
        '\n' | '\t' => false,
        '\u{61c}' | '\u{200b}'..='\u{200f}' | '\u{2028}'..='\u{202e}' | '\u{2060}'..='\u{206f}' => true,
        '\u{feff}' | '\u{fffe}' | '\u{ffff}' => true,
        other => other.is_control() || has_no_width(other),
    }
}

/// Other characters that most fonts show as nothing: a hyphen for the end of a line alone, joiners, fillers, selectors
/// of variants, marks of notes and tags.
fn has_no_width(character: char) -> bool {
    matches!(
        character,
        '\u{ad}'
            | '\u{34f}'
            | '\u{115f}'
            | '\u{1160}'
            | '\u{180e}'
            | '\u{3164}'
            | '\u{fe00}'..='\u{fe0f}'
            | '\u{ffa0}'
            | '\u{fff9}'..='\u{fffb}'
            | '\u{e0001}'
            | '\u{e0020}'..='\u{e007f}'
            | '\u{e0100}'..='\u{e01ef}'
    )
}

/// Some editors start a new line here, though no line of a model ends.
fn starts_line(character: char) -> bool {
    matches!(character, '\r' | '\u{b}' | '\u{c}' | '\u{85}' | '\u{2028}' | '\u{2029}')
}

/// How many characters of a long text a message shows.
const SHOWN: usize = 40;

/// The text, or the start of it where it is long.
pub fn shortened(text: &str) -> String {
    match text.char_indices().nth(SHOWN) {
        Some((end, _)) => format!("{}..", &text[..end]),
        None => text.into(),
    }
}

/// The character in quotes, or its number where it can't be seen.
pub fn shown(character: char) -> String {
    let quoted = format!("{character:?}");
    if is_hidden(character) || quoted.starts_with(r"'\u") {
        format!("the character U+{:04X}", u32::from(character))
    } else {
        quoted
    }
}

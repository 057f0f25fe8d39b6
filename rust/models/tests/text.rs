//! What a text may be made of: UTF-8, and nothing that an editor does not show as it is.
#![forbid(unsafe_code)]

use models::{assemble, is_hidden};
use program::limits::LONGEST_INPUT;

const MODEL: &str = "values 2\nlocations x y\nthread\n  x := 1 # c\n  r0 := y\n";

/// The message for bytes that are no model, with its hint.
fn message(bytes: &[u8]) -> String {
    match assemble(bytes) {
        Ok(assembled) => panic!("{bytes:?}\nwas assembled to {assembled:?}"),
        Err(mistake) => mistake.to_string(),
    }
}

/// Characters that start a new line in some editor.
const NEW_LINES: &[char] = &['\r', '\u{b}', '\u{c}', '\u{85}', '\u{2028}', '\u{2029}'];

/// Every character that is refused, from the lists of control, bidirectional and zero width characters.
fn refused() -> Vec<char> {
    let controls = ('\0'..='\u{1f}').chain('\u{7f}'..='\u{9f}').filter(|c| !matches!(c, '\t' | '\n'));
    let directions = ('\u{202a}'..='\u{202e}').chain('\u{2066}'..='\u{2069}');
    let marks = ['\u{61c}', '\u{200e}', '\u{200f}', '\u{2028}', '\u{2029}'];
    let no_width = ['\u{200b}', '\u{200c}', '\u{200d}', '\u{2060}', '\u{feff}'];
    controls.chain(directions).chain(marks).chain(no_width).chain(blank()).collect()
}

/// Letters, marks and tags that most fonts show as nothing.
fn blank() -> Vec<char> {
    let fillers = ['\u{ad}', '\u{34f}', '\u{115f}', '\u{1160}', '\u{180e}', '\u{3164}', '\u{ffa0}'];
    let notes = '\u{fff9}'..='\u{fffb}';
    let variants = ('\u{fe00}'..='\u{fe0f}').chain('\u{e0100}'..='\u{e01ef}');
    let tags = ['\u{e0001}'].into_iter().chain('\u{e0020}'..='\u{e007f}');
    fillers.into_iter().chain(notes).chain(variants).chain(tags).collect()
}

/// The message for a hidden character at a place.
fn hidden(place: &str, character: char) -> String {
    let number = format!("U+{:04X}", u32::from(character));
    let hint = "\n  hint: a line ends with LF, or with CR and LF";
    format!(
        "{place}: expected text without control or hidden characters, found the character {number}{}",
        if NEW_LINES.contains(&character) { hint } else { "" }
    )
}

#[test]
fn a_hidden_character_is_a_mistake_wherever_it_stands() {
    assert_eq!(refused().len(), 63 + 9 + 5 + 5 + 7 + 3 + 256 + 97);
    for c in refused() {
        let at = |place: &str, before: &str| {
            let text = MODEL.replacen(before, &format!("{before}{c}"), 1);
            assert_eq!(message(text.as_bytes()), hidden(place, c));
        };
        at("2:13", "locations x ");
        at("4:5", "  x ");
        at("4:9", ":= 1");
        at("4:12", "# ");
        at("5:1", "# c\n");
        at("6:1", "r0 := y\n");
        assert_eq!(message(format!(" {c}{MODEL}").as_bytes()), hidden("1:2", c));
        assert!(is_hidden(c));
    }
}

/// In many editors this is store buffering, of which a comment would hide the first read.
#[test]
fn a_lone_cr_hides_no_line() {
    let text = "values 2\nlocations x y\nthread\n  x := 1 # c\r  r0 := y\nthread\n  y := 1\n  r0 := x\n";
    let expected = "4:13: expected text without control or hidden characters, found the character U+000D\n  \
        hint: a line ends with LF, or with CR and LF";
    assert_eq!(message(text.as_bytes()), expected);
}

#[test]
fn lines_end_with_lf_or_cr_lf() {
    let plain = assemble(MODEL.as_bytes());
    assert!(plain.is_ok());
    assert_eq!(assemble(MODEL.replace('\n', "\r\n").as_bytes()), plain);
    assert_eq!(assemble(MODEL.replacen('\n', "\r\n", 3).as_bytes()), plain);
    assert_eq!(message(MODEL.replace('\n', "\r").as_bytes()), hidden("1:9", '\r'));
    assert_eq!(message(MODEL.replace('\n', "\n\r").as_bytes()), hidden("2:1", '\r'));
    assert_eq!(message(MODEL.replace('\n', "\r\r\n").as_bytes()), hidden("1:9", '\r'));
    assert_eq!(message(format!("{MODEL}thread\r").as_bytes()), hidden("6:7", '\r'));
}

#[test]
fn what_is_seen_may_stand_in_a_comment() {
    let plain = assemble(MODEL.as_bytes());
    for comment in ["\tc", "Grüße", "待つ", "שלום", "🦀", "e\u{301}", "a\u{a0}b", "⚠", "가"] {
        assert_eq!(assemble(MODEL.replace("# c", &format!("# {comment}")).as_bytes()), plain, "{comment}");
        assert!(!comment.contains(is_hidden), "{comment}");
    }
}

#[test]
fn what_does_not_show_alone_has_its_number_in_a_message() {
    for (character, shown) in [
        ('\u{a0}', "the character U+00A0"),
        ('\u{3000}', "the character U+3000"),
        ('\u{301}', "the character U+0301"),
        ('\u{2003}', "the character U+2003"),
        ('é', "'é'"),
        ('$', "'$'"),
    ] {
        let text = MODEL.replace("1 #", &format!("1 {character} #"));
        assert_eq!(message(text.as_bytes()), format!("4:10: expected the end of the line, found {shown}"));
    }
}

#[test]
fn a_text_is_utf_8() {
    assert_eq!(message(b"\xff"), "1:1: expected text in UTF-8, found the byte 255");
    assert_eq!(message(b"\xef\xbb\xbf# \xff"), "1:3: expected text in UTF-8, found the byte 255");
    let late = "values 2\n# ä".bytes().chain([0xc3]).collect::<Vec<_>>();
    assert_eq!(message(&late), "2:4: expected text in UTF-8, found the byte 195");
}

#[test]
fn a_byte_order_mark_in_front_is_no_part_of_the_text() {
    assert_eq!(assemble(format!("\u{feff}{MODEL}").as_bytes()), assemble(MODEL.as_bytes()));
    assert_eq!(message("\u{feff}  thread".as_bytes()), "1:3: expected 'values', found 'thread'");
    assert_eq!(message(format!("\u{feff}\u{feff}{MODEL}").as_bytes()), hidden("1:1", '\u{feff}'));
}

#[test]
fn a_text_has_at_most_1_mib() {
    let text = |length: usize| format!("{MODEL}#{}", " ".repeat(length - MODEL.len() - 1));
    assert!(assemble(text(LONGEST_INPUT).as_bytes()).is_ok());
    let long = "1:1: expected a text of at most 1 MiB, found one of 1048577 bytes";
    assert_eq!(message(text(LONGEST_INPUT + 1).as_bytes()), long);
}

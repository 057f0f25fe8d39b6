//! Any text in HTML.

use models::is_hidden;

/// The text with nothing in it that HTML reads as its own, for elements and attributes. A character that would not be
/// seen, or would turn the text around, is shown by its number.
pub fn escaped(text: &str) -> String {
    let mut escaped = String::with_capacity(text.len());
    for character in text.chars() {
        match character {
            '&' => escaped.push_str("&amp;"),
            '<' => escaped.push_str("&lt;"),
            '>' => escaped.push_str("&gt;"),
            '"' => escaped.push_str("&quot;"),
            '\'' => escaped.push_str("&#39;"),
            hidden if is_hidden(hidden) => escaped.extend(hidden.escape_unicode()),
            plain => escaped.push(plain),
        }
    }
    escaped
}

#[cfg(test)]
mod tests {
    use super::escaped;

    #[test]
    fn what_html_reads_is_escaped() {
        assert_eq!(
            escaped("<a href=\"x\" id='y'>&amp;"),
            "&lt;a href=&quot;x&quot; id=&#39;y&#39;&gt;&amp;amp;"
        );
    }

    #[test]
    fn what_would_not_be_seen_is_shown() {
        assert_eq!(escaped("a\0b\u{7f}\r\u{85}"), "a\\u{0}b\\u{7f}\\u{d}\\u{85}");
        assert_eq!(escaped("\u{202e}x\u{2066}\u{feff}\u{200b}"), "\\u{202e}x\\u{2066}\\u{feff}\\u{200b}");
    }

    #[test]
    fn other_text_stays() {
        let text = "wait(x = 1)\t# Grüße, 待つ, 🦀\nnext";
        assert_eq!(escaped(text), text);
    }
}

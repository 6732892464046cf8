//! Bytes as text on one line: what does not print is escaped, and so is every byte that is not UTF-8.

/// Bytes as text, with each part that is UTF-8 as it is to be shown.
pub fn escaped(bytes: &[u8], show: impl Fn(&str) -> String) -> String {
    let mut text = String::new();
    for chunk in bytes.utf8_chunks() {
        text += &show(chunk.valid());
        text.extend(chunk.invalid().iter().map(|byte| format!("\\x{byte:02X}")));
    }
    text
}

/// Bytes as text in quotation marks, so that the marks themselves and backslashes are escaped, too.
pub fn quoted(bytes: &[u8]) -> String {
    // An apostrophe, which is always escaped there, needs that only between apostrophes.
    let show = |text: &str| text.escape_debug().to_string().replace("\\'", "'");
    format!("\"{}\"", escaped(bytes, show))
}

#[cfg(test)]
mod tests {
    use super::quoted;

    #[test]
    fn what_prints_is_quoted_as_it_is() {
        for text in
            ["", "4 \u{B5}s, 300\u{B0}", "Jean's caf\u{E9}", "e\u{301}", "\u{65E5}\u{672C}", "\u{5E9}\u{5DC}", "\u{1F4BE}", "\u{FFFD}"]
        {
            assert_eq!(quoted(text.as_bytes()), format!("\"{text}\""));
        }
    }

    #[test]
    fn all_else_is_escaped() {
        for (text, due) in [
            ("a\"b\\c\\'d'", "a\\\"b\\\\c\\\\'d'"),
            ("\n\r\t\u{1}\u{1B}[2J\u{7F}", "\\n\\r\\t\\u{1}\\u{1b}[2J\\u{7f}"),
            ("\u{85}\u{9B}31m", "\\u{85}\\u{9b}31m"),
            ("\u{61C}\u{200B}\u{200E}\u{200F}\u{2028}\u{2029}", "\\u{61c}\\u{200b}\\u{200e}\\u{200f}\\u{2028}\\u{2029}"),
            ("\u{202A}\u{202E}\u{2066}\u{2069}\u{FEFF}", "\\u{202a}\\u{202e}\\u{2066}\\u{2069}\\u{feff}"),
            ("\u{A0}\u{AD}\u{E000}\u{FFFE}\u{E0041}\u{10FFFF}", "\\u{a0}\\u{ad}\\u{e000}\\u{fffe}\\u{e0041}\\u{10ffff}"),
            ("\u{301}e", "\\u{301}e"),
        ] {
            assert_eq!(quoted(text.as_bytes()), format!("\"{due}\""));
        }
        assert_eq!(quoted(b"caf\x97 \xE2\x82\xC0\xAF\xC3\xA9\xFF"), "\"caf\\x97 \\xE2\\x82\\xC0\\xAF\u{E9}\\xFF\"");
    }

    #[test]
    fn no_byte_changes_the_line() {
        for first in 0..=u8::MAX {
            for second in 0..=u8::MAX {
                let shown = quoted(&[first, second]);
                assert!(!shown.chars().any(char::is_control), "{shown:?}");
            }
        }
        for letter in (0..=0x10FFFF).filter_map(char::from_u32).filter(|letter| letter.is_control()) {
            assert!(quoted(letter.to_string().as_bytes()).is_ascii(), "{letter:?}");
        }
    }
}

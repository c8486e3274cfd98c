//! Strings of a recording made fit for a line: nothing in them reaches a terminal but what can be seen, and what is too long is shortened.

/// A string is shortened beyond this many characters.
pub const LONGEST: usize = 120;

/// The string as it is where that is plain to see, else in quotes with escapes.
pub fn visible(text: &str) -> String {
    let plain = |c: char| !c.is_whitespace() && !is_hidden(c) && c != '"' && c != '\\';
    if !text.is_empty() && text.chars().all(plain) {
        return text.to_owned();
    }
    let mut quoted = String::from('"');
    for c in text.chars() {
        match c {
            '"' | '\\' => quoted.extend(['\\', c]),
            '\n' => quoted.push_str("\\n"),
            '\t' => quoted.push_str("\\t"),
            _ if is_hidden(c) => quoted.extend(c.escape_unicode()),
            _ => quoted.push(c),
        }
    }
    quoted.push('"');
    quoted
}

/// The same with at most `LONGEST` of the string's characters. Of a path the end is kept, since that names what it is; of all else the beginning.
pub fn shortened(text: &str) -> String {
    let length = text.chars().count();
    if length <= LONGEST {
        return visible(text);
    }
    if text.starts_with('/') {
        format!("{} ({} bytes)", ending(text), text.len())
    } else {
        let beginning: String = text.chars().take(LONGEST).collect();
        format!("{}… ({} bytes)", visible(&beginning), text.len())
    }
}

/// At most `LONGEST` of the string's last characters.
pub fn ending(text: &str) -> String {
    match text.char_indices().rev().nth(LONGEST - 1) {
        Some((start, _)) if start > 0 => format!("…{}", visible(&text[start..])),
        _ => visible(text),
    }
}

/// Control characters, and those that change the order or the look of what stands around them.
fn is_hidden(c: char) -> bool {
    c.is_control() || matches!(c, '\u{ad}' | '\u{61c}' | '\u{200b}'..='\u{200f}' | '\u{2028}'..='\u{202e}' | '\u{2060}'..='\u{206f}' | '\u{feff}')
}

#[cfg(test)]
mod tests {
    use super::*;

    #[test]
    fn plain_text_stands_as_it_is() {
        assert_eq!(visible("/nix/store/abc-bin7"), "/nix/store/abc-bin7");
        assert_eq!(visible("größe"), "größe");
    }

    #[test]
    fn what_a_terminal_would_obey_is_escaped() {
        assert_eq!(visible("\u{1b}[31mred\n"), "\"\\u{1b}[31mred\\n\"");
        assert_eq!(visible("a\u{202e}b"), "\"a\\u{202e}b\"");
        assert_eq!(visible("\r\u{9b}"), "\"\\u{d}\\u{9b}\"");
    }

    #[test]
    fn quotes_where_the_string_would_not_be_seen() {
        assert_eq!(visible(""), "\"\"");
        assert_eq!(visible("a b"), "\"a b\"");
        assert_eq!(visible("\"\\"), "\"\\\"\\\\\"");
    }

    #[test]
    fn of_a_long_path_the_end_is_kept() {
        let path = format!("/nix/store/{}-the-bin", "x".repeat(200));
        let shown = shortened(&path);
        assert!(shown.starts_with("…x") && shown.ends_with("x-the-bin (219 bytes)"), "{shown}");
        let text = format!("{{{}}}", "é".repeat(200));
        let shown = shortened(&text);
        assert!(shown.starts_with("{éé") && shown.ends_with("é… (402 bytes)"), "{shown}");
    }

    #[test]
    fn the_end_of_a_text() {
        let whole = "é".repeat(LONGEST);
        assert_eq!(ending(&whole), whole);
        assert_eq!(ending(&format!("a{whole}")), format!("…{whole}"));
        assert_eq!(ending("a b"), "\"a b\"");
    }
}

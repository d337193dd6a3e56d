//! Text from outside, made safe to show: nothing in it can move a terminal's cursor, end a line or turn the direction of reading.
use std::ffi::OsStr;
use std::os::unix::ffi::OsStrExt;

/// Whether a character is a control character, ends a line, turns the direction of reading, or is a mark or a tag that is not seen.
pub fn is_hidden(c: char) -> bool {
    c.is_control()
        || matches!(c, '\u{61c}' | '\u{200e}' | '\u{200f}' | '\u{2028}'..='\u{202e}' | '\u{2066}'..='\u{2069}' | '\u{feff}')
        || matches!(c, '\u{e0000}'..='\u{e007f}')
}

/// A text in quotes of the given kind; hidden characters, backslashes and these quotes in it are escaped.
fn quoted(text: &str, quote: char) -> String {
    let mut shown = String::from(quote);
    for c in text.chars() {
        match c {
            '\n' | '\r' | '\t' | '\\' => shown.extend(c.escape_default()),
            c if c == quote => shown.extend(['\\', c]),
            c if is_hidden(c) => shown.extend(c.escape_unicode()),
            c => shown.push(c),
        }
    }
    shown.push(quote);
    shown
}

/// A text in double quotes.
pub fn text(text: &str) -> String {
    quoted(text, '"')
}

/// A file's name, an option or another word of the call, in single quotes; bytes that are no UTF-8 are shown as U+FFFD, a long one by its front.
pub fn name(word: &OsStr) -> String {
    const MOST: usize = 200;
    let word = String::from_utf8_lossy(word.as_bytes());
    match word.char_indices().nth(MOST) {
        Some((end, _)) => quoted(&word[..end], '\'') + "...",
        None => quoted(&word, '\''),
    }
}

/// A byte: the character where it is a printable one, else its number.
pub fn byte(byte: u8) -> String {
    match byte {
        b' ' => "a blank".to_string(),
        b'\n' => "a line end".to_string(),
        33..=126 => format!("'{}'", char::from(byte)),
        _ => format!("the byte 0x{byte:02x}"),
    }
}

/// So many things, with an s unless it is one.
pub fn count(number: u64, thing: &str) -> String {
    let plural = if number == 1 { "" } else { "s" };
    format!("{number} {thing}{plural}")
}

#[cfg(test)]
mod tests {
    use super::*;

    #[test]
    fn hidden_characters_are_escaped() {
        assert_eq!(
            text("1 cup \"\\\n\t\u{1b}[2J\u{202e}é☕"),
            r#""1 cup \"\\\n\t\u{1b}[2J\u{202e}é☕""#
        );
        assert_eq!(name(OsStr::new("a\nb's -c")), r"'a\nb\'s -c'");
        assert_eq!(name(OsStr::from_bytes(b"\xffa")), "'\u{fffd}a'");
    }

    #[test]
    fn a_long_name_is_cut() {
        let long = "é".repeat(201);
        assert_eq!(name(OsStr::new(&long)), format!("'{}'...", "é".repeat(200)));
        let whole = "é".repeat(200);
        assert_eq!(name(OsStr::new(&whole)), format!("'{whole}'"));
    }

    #[test]
    fn bytes_and_counts() {
        assert_eq!(
            [byte(b'b'), byte(b' '), byte(b'\n'), byte(7)],
            ["'b'", "a blank", "a line end", "the byte 0x07"]
        );
        assert_eq!([count(0, "row"), count(1, "row"), count(2, "row")], ["0 rows", "1 row", "2 rows"]);
    }
}

//! A part of a long input, with a caret under one place of it.

/// Shows up to so many of the input's cells, each of one width, with a caret under the place: the input from its front, or around the place where
/// it is longer. Lines end with line ends; nothing is shown of an empty input.
pub fn window(size: usize, most: usize, width: usize, place: Option<usize>, cell: impl Fn(usize) -> String) -> String {
    if size == 0 {
        return String::new();
    }
    let start = place.unwrap_or(0).saturating_sub(most / 2).min(size.saturating_sub(most));
    let end = size.min(start + most);
    let front = if start > 0 { "... " } else { "" };
    let back = if end < size { " ..." } else { "" };
    let cells: String = (start..end).map(|at| format!("{:width$}", cell(at))).collect();
    let mut shown = format!("{front}{}{back}\n", cells.trim_end());
    if let Some(place) = place.filter(|place| (start..end).contains(place)) {
        let column = front.len() + width * (place - start);
        shown += &format!("{:column$}^\n", "");
    }
    shown
}

/// A text, a character to a byte; a byte that no character stands for is a question mark.
pub fn of_text(text: &[u8], place: Option<usize>) -> String {
    let cell = |at: usize| match text[at] {
        byte @ 32..=126 => char::from(byte).to_string(),
        _ => "?".to_string(),
    };
    window(text.len(), 72, 1, place, cell)
}

/// Bytes, as two digits and a blank each.
pub fn of_bytes(bytes: &[u8], place: Option<usize>) -> String {
    window(bytes.len(), 24, 3, place, |at| format!("{:02x}", bytes[at]))
}

#[cfg(test)]
mod tests {
    use super::*;

    #[test]
    fn a_short_text_is_whole() {
        assert_eq!(of_text(b"lnbc\xff 1", Some(4)), "lnbc? 1\n    ^\n");
        assert_eq!(of_text(b"lnbc", None), "lnbc\n");
        assert_eq!(of_text(b"", None), "");
        assert_eq!(of_bytes(&[1, 0xab, 3], Some(1)), "01 ab 03\n   ^\n");
        assert_eq!(of_bytes(&[1], Some(1)), "01\n");
    }

    #[test]
    fn a_long_text_is_shown_around_its_place() {
        let text: Vec<u8> = (0..200).map(|at| if at == 100 { b'b' } else { b'q' }).collect();
        let shown = of_text(&text, Some(100));
        let (line, caret) = shown.split_once('\n').unwrap();
        assert_eq!(line.len(), 4 + 72 + 4);
        assert!(line.starts_with("... q") && line.ends_with("q ..."));
        assert_eq!(line.find('b'), caret.find('^'));
        assert_eq!(of_text(&text, None), format!("{} ...\n", "q".repeat(72)));
    }

    #[test]
    fn the_caret_is_under_its_byte_at_every_place() {
        let bytes: Vec<u8> = (0..60).collect();
        for place in 0..60 {
            let shown = of_bytes(&bytes, Some(place));
            let (line, caret) = shown.split_once('\n').unwrap();
            let column = caret.find('^').unwrap();
            assert_eq!(line[column..column + 2], format!("{place:02x}"));
            assert_eq!((line.starts_with("..."), line.ends_with("...")), (place > 12, place < 48));
        }
    }
}

//! Hexadecimal digits, read and written.
use std::fmt::Write;
use std::os::unix::ffi::OsStrExt;

use crate::call::Call;
use crate::fault::Fault;
use crate::{input, shown};

/// Bytes as lower-case digits.
pub fn digits(bytes: &[u8]) -> String {
    bytes.iter().fold(String::with_capacity(2 * bytes.len()), |mut digits, byte| {
        let _ = write!(digits, "{byte:02x}");
        digits
    })
}

/// Bytes as lower-case digits, or the word for none.
pub fn words(bytes: &[u8]) -> String {
    if bytes.is_empty() {
        "empty".to_string()
    } else {
        digits(bytes)
    }
}

/// What is wrong with digits, and at which byte of their text, from 0.
#[derive(Debug, PartialEq, Eq)]
struct BadDigit {
    at: usize,
    words: String,
}

/// The bytes of one word of digits that begins at a byte of the text.
fn word_bytes(word: &[u8], start: usize, bytes: &mut Vec<u8>) -> Result<(), BadDigit> {
    let bad = |at, words: String| Err(BadDigit { at: start + at, words });
    if word.starts_with(b"0x") || word.starts_with(b"0X") {
        return bad(0, "0x is no part of the bytes; give the digits alone".to_string());
    }
    if let Some(at) = word.iter().position(|digit| !digit.is_ascii_hexdigit()) {
        return bad(at, format!("{} is not a hexadecimal digit", shown::byte(word[at])));
    }
    if word.len() % 2 == 1 {
        let count = word.len();
        return bad(count - 1, format!("a digit alone in a word of {count}; a byte has two"));
    }
    let value = |digit: u8| char::from(digit).to_digit(16).map_or(0, |value| value as u8);
    bytes.extend(word.chunks_exact(2).map(|pair| value(pair[0]) << 4 | value(pair[1])));
    Ok(())
}

/// The bytes of digits with blanks and line ends between them.
fn text_bytes(text: &[u8]) -> Result<Vec<u8>, BadDigit> {
    let mut bytes = Vec::new();
    let mut start = 0;
    for word in text.split(u8::is_ascii_whitespace) {
        word_bytes(word, start, &mut bytes)?;
        start += word.len() + 1;
    }
    Ok(bytes)
}

/// The bytes that the words of a call spell, joined.
fn from_words<'w>(words: impl Iterator<Item = &'w [u8]>) -> Result<Vec<u8>, Fault> {
    let mut bytes = Vec::new();
    for (count, word) in words.enumerate() {
        let read = text_bytes(word).map_err(|bad| {
            let (word, at) = (count + 1, bad.at + 1);
            Fault::no_output(format!("HEX word {word}, character {at}: {}", bad.words))
        })?;
        bytes.extend(read);
    }
    Ok(bytes)
}

/// The bytes that standard input spells.
fn from_input(text: &[u8]) -> Result<Vec<u8>, Fault> {
    text_bytes(text).map_err(|bad| {
        let front = &text[..bad.at];
        let line = 1 + front.iter().filter(|&&byte| byte == b'\n').count();
        let at = 1 + front.iter().rev().take_while(|&&byte| byte != b'\n').count();
        Fault::no_output(format!("standard input, line {line}, character {at}: {}", bad.words))
    })
}

/// The bytes that a call gives as digits: in its words, or on standard input.
pub fn from_call(command: &str, call: &Call) -> Result<Vec<u8>, Fault> {
    if call.is_all_on_input(command, "HEX")? {
        return from_input(&input::standard(&format!("the {command}'s digits"))?);
    }
    from_words(call.words.iter().map(|word| word.as_bytes()))
}

#[cfg(test)]
mod tests {
    use super::*;

    fn fault(read: Result<Vec<u8>, Fault>) -> String {
        read.unwrap_err().words
    }

    #[test]
    fn digits_there_and_back() {
        let bytes: Vec<u8> = (0..=255).collect();
        assert_eq!(text_bytes(digits(&bytes).as_bytes()), Ok(bytes.clone()));
        assert_eq!(text_bytes(digits(&bytes).to_uppercase().as_bytes()), Ok(bytes));
        assert_eq!([words(&[]), words(&[10])], ["empty", "0a"]);
    }

    #[test]
    fn blanks_and_line_ends_part_bytes() {
        assert_eq!(from_input(b" 01 02\t0304\r\n\n05\n").unwrap(), [1, 2, 3, 4, 5]);
        assert_eq!(from_words([&b"01"[..], b"", b"02 03"].into_iter()).unwrap(), [1, 2, 3]);
        assert_eq!(from_input(b"").unwrap(), []);
    }

    #[test]
    fn faults_tell_their_place() {
        assert_eq!(
            fault(from_input(b"01\n02 0g")),
            "standard input, line 2, character 5: 'g' is not a hexadecimal digit"
        );
        assert_eq!(
            fault(from_input(b"\0")),
            "standard input, line 1, character 1: the byte 0x00 is not a hexadecimal digit"
        );
        let words = [&b"01"[..], b"02 345"].into_iter();
        assert_eq!(
            fault(from_words(words)),
            "HEX word 2, character 6: a digit alone in a word of 3; a byte has two"
        );
        let words = [&b"0X01"[..]].into_iter();
        assert_eq!(
            fault(from_words(words)),
            "HEX word 1, character 1: 0x is no part of the bytes; give the digits alone"
        );
    }
}

//! The forms of documents 01 and 02, in words.
use crate::shown::count;

/// Any bytes.
pub const ANY: u64 = 0;
/// Exactly n bytes.
pub const EXACT: u64 = 1;
/// An integer of at most n bytes.
pub const INTEGER: u64 = 2;
/// Items of n bytes.
pub const ITEMS: u64 = 3;
/// A compressed point, then n bytes.
pub const POINT: u64 = 4;
/// A stream in namespace n.
pub const STREAM: u64 = 5;
/// An address descriptor.
pub const ADDRESS: u64 = 6;

/// What a row's form asks of a value; the row is one of an accepted table.
pub fn words(form: u64, parameter: u64) -> String {
    let bytes = count(parameter, "byte");
    match form {
        ANY => "any bytes".to_string(),
        EXACT => format!("exactly {bytes}"),
        INTEGER => format!("an integer of at most {bytes}"),
        ITEMS => format!("items of {bytes}"),
        POINT => format!("a point and {bytes}"),
        STREAM => format!("a stream in namespace {parameter}"),
        _ => "an address descriptor".to_string(),
    }
}

#[cfg(test)]
mod tests {
    use super::*;

    #[test]
    fn every_form_has_words() {
        let words: Vec<String> = [
            (ANY, 0),
            (EXACT, 1),
            (INTEGER, 8),
            (ITEMS, 32),
            (POINT, 0),
            (STREAM, 63),
            (ADDRESS, 0),
        ]
        .map(|(form, parameter)| words(form, parameter))
        .into();
        let wanted = [
            "any bytes",
            "exactly 1 byte",
            "an integer of at most 8 bytes",
            "items of 32 bytes",
            "a point and 0 bytes",
            "a stream in namespace 63",
            "an address descriptor",
        ];
        assert_eq!(words, wanted);
    }
}

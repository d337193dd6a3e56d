//! JSON, written on one line with its keys in a fixed order.
use std::fmt::{self, Display, Formatter, Write};

use crate::hex;
use crate::shown::is_hidden;

/// A JSON value.
pub enum Json {
    Null,
    Bool(bool),
    /// A number that never passes 2^53, so that every reader takes it exactly.
    Number(u64),
    Text(String),
    List(Vec<Json>),
    Object(Vec<(&'static str, Json)>),
}

impl Json {
    /// A number that may pass 2^53, as its decimal digits.
    pub fn digits(number: u64) -> Self {
        Json::Text(number.to_string())
    }

    /// Bytes, as hexadecimal digits.
    pub fn hex(bytes: &[u8]) -> Self {
        Json::Text(hex::digits(bytes))
    }

    /// A text that may be missing.
    pub fn text(text: Option<impl Into<String>>) -> Self {
        text.map_or(Json::Null, |text| Json::Text(text.into()))
    }

    /// A count of bytes or of groups.
    pub fn count(count: usize) -> Self {
        Json::Number(count as u64)
    }
}

/// Writes a string with its quotes. What is hidden is escaped too, so that no terminal acts on it.
fn write_text(text: &str, f: &mut Formatter<'_>) -> fmt::Result {
    f.write_char('"')?;
    for c in text.chars() {
        match c {
            '"' | '\\' => write!(f, "\\{c}")?,
            '\n' => f.write_str("\\n")?,
            '\r' => f.write_str("\\r")?,
            '\t' => f.write_str("\\t")?,
            c if is_hidden(c) => {
                for half in c.encode_utf16(&mut [0; 2]) {
                    write!(f, "\\u{half:04x}")?;
                }
            }
            c => f.write_char(c)?,
        }
    }
    f.write_char('"')
}

/// Writes parts with commas between them.
fn write_parts<T>(parts: &[T], f: &mut Formatter<'_>, write: impl Fn(&T, &mut Formatter<'_>) -> fmt::Result) -> fmt::Result {
    for (at, part) in parts.iter().enumerate() {
        if at > 0 {
            f.write_char(',')?;
        }
        write(part, f)?;
    }
    Ok(())
}

impl Display for Json {
    fn fmt(&self, f: &mut Formatter<'_>) -> fmt::Result {
        match self {
            Json::Null => f.write_str("null"),
            Json::Bool(truth) => write!(f, "{truth}"),
            Json::Number(number) => write!(f, "{number}"),
            Json::Text(text) => write_text(text, f),
            Json::List(parts) => {
                f.write_char('[')?;
                write_parts(parts, f, |part, f| write!(f, "{part}"))?;
                f.write_char(']')
            }
            Json::Object(pairs) => {
                f.write_char('{')?;
                write_parts(pairs, f, |(key, value), f| write!(f, "\"{key}\":{value}"))?;
                f.write_char('}')
            }
        }
    }
}

#[cfg(test)]
mod tests {
    use super::*;

    #[test]
    fn strings_are_escaped() {
        let text = Json::Text("a\"b\\c\n\r\t\u{0}\u{1f}\u{7f}\u{9b}\u{202e}\u{e0041}é☕".to_string());
        let wanted = r#""a\"b\\c\n\r\t\u0000\u001f\u007f\u009b\u202e\udb40\udc41é☕""#;
        assert_eq!(text.to_string(), wanted);
    }

    #[test]
    fn keys_keep_their_order() {
        let list = Json::List(vec![Json::Null, Json::Bool(true), Json::List(Vec::new())]);
        let object = Json::Object(vec![("b", Json::Number(1)), ("a", list), ("c", Json::hex(&[0, 255]))]);
        assert_eq!(object.to_string(), r#"{"b":1,"a":[null,true,[]],"c":"00ff"}"#);
        assert_eq!(Json::Object(Vec::new()).to_string(), "{}");
        assert_eq!(Json::digits(u64::MAX).to_string(), r#""18446744073709551615""#);
        assert_eq!(Json::text(None::<String>).to_string(), "null");
    }
}

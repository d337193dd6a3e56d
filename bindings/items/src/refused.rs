//! A refusal: its number and meaning, where it is, and what to do about it.
use tockplover::{numbers, Refusal};

use crate::answer::Item;
use crate::json::Json;
use crate::shown::{self, count};
use crate::window;

/// A row of a table that was read from a file, both from 1; a row of a book stands on no line.
pub struct RowPlace {
    pub row: usize,
    pub line: Option<usize>,
}

/// A refusal with what it is about.
pub struct Refused {
    refusal: Refusal,
    /// Where it is, in words; empty where the refusal has no place.
    place: String,
    /// The input, with a caret where the refusal has a place, in lines.
    sight: String,
    /// The table's bad row, where a table is refused.
    row: Option<RowPlace>,
}

/// Whether a refusal stands at a record of a stream.
fn is_at_record(refusal: &Refusal) -> bool {
    (numbers::TYPE_CUT..=numbers::TOO_DEEP).contains(&refusal.number)
}

/// Whether a refusal at a record tells the record's type: where the type cannot be read there is none.
fn tells_type(refusal: &Refusal) -> bool {
    is_at_record(refusal) && refusal.number > numbers::TYPE_NOT_SHORTEST
}

/// How much is missing from what is cut short at a record, in words.
fn lack(refusal: &Refusal) -> Option<String> {
    let part = match refusal.number {
        numbers::TYPE_CUT => "type",
        numbers::LENGTH_CUT => "length",
        numbers::VALUE_CUT => "value",
        _ => return None,
    };
    Some(format!("the {part} lacks {}", count(refusal.missing, "byte")))
}

impl Refused {
    /// Of an invoice's text: 31 and 34 have the place of a character.
    pub fn of_text(refusal: Refusal, text: &[u8]) -> Self {
        let placed = matches!(refusal.number, numbers::TEXT_BYTE | numbers::ALPHABET);
        let bad = placed.then(|| text.get(refusal.place)).flatten();
        Refused {
            refusal,
            place: bad.map_or(String::new(), |&byte| {
                format!("at character {}: {}", refusal.place, shown::byte(byte))
            }),
            sight: window::of_text(text, bad.map(|_| refusal.place)),
            row: None,
        }
    }

    /// Of a stream, or of a message's extension: 1 to 11 have the place of a record's first byte.
    pub fn of_bytes(refusal: Refusal, bytes: &[u8]) -> Self {
        let place = is_at_record(&refusal).then_some(refusal.place);
        let mut words = place.map_or(String::new(), |place| format!("at byte {place}"));
        if tells_type(&refusal) {
            words += &format!(", type {}", refusal.kind);
        }
        if let Some(lack) = lack(&refusal) {
            words += &format!(": {lack}");
        }
        Refused {
            refusal,
            place: words,
            sight: window::of_bytes(bytes, place),
            row: None,
        }
    }

    /// Of a message: 20 and 22 tell its type, where it has one.
    pub fn of_message(refusal: Refusal, bytes: &[u8]) -> Self {
        let mut refused = Refused::of_bytes(refusal, bytes);
        if matches!(refusal.number, numbers::MESSAGE_CUT | numbers::UNKNOWN_EVEN_MESSAGE) && bytes.len() >= 2 {
            refused.place = format!("message type {}", refusal.kind);
        }
        refused
    }

    /// Of a table or a book: told in words where it is.
    pub fn of_table(refusal: Refusal, place: String, row: Option<RowPlace>) -> Self {
        Refused {
            refusal,
            place,
            sight: String::new(),
            row,
        }
    }

    /// The refusal on one line, as the report on a book has it.
    pub fn line(&self) -> String {
        let Refusal { number, place, .. } = self.refusal;
        format!("refused {number} at {place}: {}", self.refusal.meaning())
    }

    /// The refusal's key and object.
    pub fn pair(&self) -> (&'static str, Json) {
        let mut pairs = vec![
            ("number", Json::Number(self.refusal.number.into())),
            ("place", Json::count(self.refusal.place)),
            ("type", Json::digits(self.refusal.kind)),
            ("missing", Json::digits(self.refusal.missing)),
            ("meaning", Json::Text(self.refusal.meaning().to_string())),
            ("advice", Json::Text(self.refusal.advice().to_string())),
        ];
        if let Some(RowPlace { row, line }) = self.row {
            pairs.push(("row", Json::count(row)));
            pairs.push(("line", line.map_or(Json::Null, Json::count)));
        }
        ("refused", Json::Object(pairs))
    }
}

impl Item for Refused {
    fn lines(&self) -> String {
        let mut lines = format!("refused {}: {}\n", self.refusal.number, self.refusal.meaning());
        if !self.place.is_empty() {
            lines += &format!("{}\n", self.place);
        }
        if !self.refusal.advice().is_empty() {
            lines += &format!("what to do: {}\n", self.refusal.advice());
        }
        lines + &self.sight
    }

    fn json(&self) -> Json {
        Json::Object(vec![self.pair()])
    }
}

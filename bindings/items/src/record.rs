//! The records of a stream, with those inside them.
use tockplover::stream::{self, Counts, Reading};

use crate::address;
use crate::form;
use crate::hex;
use crate::json::Json;
use crate::shown::count;
use crate::table::{self, Row};

/// A record that was read.
pub struct Record {
    kind: u64,
    /// What the type is called, where it has a name.
    name: Option<&'static str>,
    value: Vec<u8>,
    /// The table's row of a known type.
    row: Option<Row>,
    /// The records inside a value of form 5.
    inner: Option<Records>,
}

/// The records of a stream, and how many there are and are known.
pub struct Records {
    records: Vec<Record>,
    counts: Counts,
}

/// The names of types: none, or those of init's extension.
pub type Names = fn(u64) -> Option<&'static str>;

/// For streams whose types have no names.
pub fn no_names(_kind: u64) -> Option<&'static str> {
    None
}

/// The stream in a value of form 5. Its outer stream is accepted, so it is too.
fn inside(numbers: &[u64], row: &Row, value: &[u8]) -> Records {
    let mut index = vec![0; 2 * value.len()];
    let reading = stream::read(numbers, row.parameter, value, &mut index).expect("a stream inside an accepted one is accepted");
    Records::of(numbers, row.parameter, &reading, no_names)
}

impl Records {
    /// The records of a stream that was read with a table in a namespace.
    pub fn of(numbers: &[u64], namespace: u64, reading: &Reading, names: Names) -> Self {
        let record = |read: stream::Record| {
            let row = read.known.then(|| table::find(numbers, namespace, read.kind)).flatten();
            let nested = row.filter(|row| row.form == form::STREAM);
            Record {
                kind: read.kind,
                name: names(read.kind),
                value: read.value.to_vec(),
                row,
                inner: nested.map(|row| inside(numbers, &row, read.value)),
            }
        };
        Records {
            records: reading.records().map(record).collect(),
            counts: reading.counts(),
        }
    }

    /// How many records there are, and how many of them are known.
    pub fn words(&self) -> String {
        format!("{}, {} known", count(self.counts.records as u64, "record"), self.counts.known)
    }

    /// A line for each record, with those inside it indented below.
    pub fn lines(&self, indent: usize) -> String {
        self.records.iter().map(|record| record.lines(indent)).collect()
    }

    /// What an object about a stream has: the counts and the records.
    pub fn pairs(&self) -> [(&'static str, Json); 3] {
        [
            ("count", Json::count(self.counts.records)),
            ("known_count", Json::count(self.counts.known)),
            ("records", Json::List(self.records.iter().map(Record::json).collect())),
        ]
    }
}

/// The number that big-endian bytes spell, at most eight.
fn integer(bytes: &[u8]) -> u64 {
    bytes.iter().fold(0, |value, &byte| value << 8 | u64::from(byte))
}

/// A point's bytes.
const POINT: usize = 33;

impl Record {
    /// The items of a value of form 3.
    fn items(&self, row: &Row) -> impl Iterator<Item = &[u8]> {
        self.value.chunks(row.parameter as usize)
    }

    /// The value in words, by the form that its row asks.
    fn value_words(&self, row: &Row) -> String {
        let whole = hex::words(&self.value);
        match row.form {
            form::INTEGER => format!("{whole} = {}", integer(&self.value)),
            form::ITEMS if !self.value.is_empty() => self.items(row).map(hex::digits).collect::<Vec<_>>().join(" "),
            form::POINT => {
                let (point, rest) = self.value.split_at(POINT);
                format!("point {}, rest {}", hex::digits(point), hex::words(rest))
            }
            form::ADDRESS => format!("{whole} = {}", address::words(&self.value)),
            _ => whole,
        }
    }

    /// What stands behind the record's type and length.
    fn content(&self) -> String {
        match &self.row {
            Some(row) => format!("known, {}, {}", form::words(row.form, row.parameter), self.value_words(row)),
            None => format!("passed over, {}", hex::words(&self.value)),
        }
    }

    /// The record's line, and below it the lines of the records inside.
    fn lines(&self, indent: usize) -> String {
        let name = self.name.map_or(String::new(), |name| format!(" {name}"));
        let (blanks, length) = (" ".repeat(indent), self.value.len());
        let line = format!("{blanks}type {}{name} length {length}: {}\n", self.kind, self.content());
        line + &self.inner.as_ref().map_or(String::new(), |inner| inner.lines(indent + 2))
    }

    /// What the value says by its form, besides its bytes.
    fn value_pairs(&self, row: &Row) -> Vec<(&'static str, Json)> {
        match (row.form, &self.inner) {
            (form::INTEGER, _) => vec![("integer", Json::digits(integer(&self.value)))],
            (form::ITEMS, _) => vec![("items", Json::List(self.items(row).map(Json::hex).collect()))],
            (form::POINT, _) => {
                let (point, rest) = self.value.split_at(POINT);
                vec![("point", Json::hex(point)), ("rest", Json::hex(rest))]
            }
            (form::ADDRESS, _) => vec![("address", address::json(&self.value))],
            (_, Some(inner)) => inner.pairs().into(),
            _ => Vec::new(),
        }
    }

    /// The record's object.
    fn json(&self) -> Json {
        let mut pairs = vec![("type", Json::digits(self.kind))];
        pairs.extend(self.name.map(|name| ("name", Json::Text(name.to_string()))));
        pairs.push(("length", Json::count(self.value.len())));
        pairs.push(("known", Json::Bool(self.row.is_some())));
        pairs.push(("value", Json::hex(&self.value)));
        if let Some(row) = &self.row {
            pairs.push(("form", Json::Number(row.form)));
            pairs.push(("parameter", Json::Number(row.parameter)));
            pairs.extend(self.value_pairs(row));
        }
        Json::Object(pairs)
    }
}

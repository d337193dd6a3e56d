//! A table of known types, from a text in the form of tools/book or from a recording book.
use std::ffi::OsStr;

use tockplover::month::Figures;
use tockplover::{numbers, table, Refusal};

use crate::answer::Stop;
use crate::fault::Fault;
use crate::refused::{Refused, RowPlace};
use crate::{input, shown};

/// The most rows of a table.
const MOST_ROWS: usize = 256;

/// A book's first byte is that of its count of rows, of which it can hold no more than 2,047; no text begins with such a byte.
const BOOK_FRONTS: std::ops::RangeInclusive<u8> = 0..=7;

/// The items of a book's text besides rows, which are passed over.
const OTHER_ITEMS: [&str; 4] = ["stream", "message", "invoice", "invoice-hex"];

/// The rows that a file holds, whether they are a table or not.
#[derive(Default)]
pub struct Table {
    /// Four numbers to a row: namespace, type, form, parameter.
    pub numbers: Vec<u64>,
    /// The line of each row, from 1; none for the rows of a book.
    lines: Vec<usize>,
    /// The file, as it is shown.
    pub name: String,
}

/// A row of a table.
#[derive(Clone, Copy, PartialEq, Eq)]
pub struct Row {
    pub namespace: u64,
    pub kind: u64,
    pub form: u64,
    pub parameter: u64,
}

/// The rows of a run of numbers.
pub fn rows(numbers: &[u64]) -> impl Iterator<Item = Row> + '_ {
    numbers.chunks_exact(4).map(|row| Row {
        namespace: row[0],
        kind: row[1],
        form: row[2],
        parameter: row[3],
    })
}

/// The row of a type in a namespace.
pub fn find(numbers: &[u64], namespace: u64, kind: u64) -> Option<Row> {
    rows(numbers).find(|row| row.namespace == namespace && row.kind == kind)
}

/// A decimal number, or a hexadecimal one after 0x.
pub fn number(word: &str) -> Result<u64, String> {
    let hexadecimal = word.strip_prefix("0x").or_else(|| word.strip_prefix("0X"));
    let (digits, base) = hexadecimal.map_or((word, 10), |digits| (digits, 16));
    if digits.is_empty() || !digits.chars().all(|digit| digit.is_digit(base)) {
        return Err(format!("{} is not a number", shown::name(OsStr::new(word))));
    }
    u64::from_str_radix(digits, base).map_err(|_| format!("{} is over {}", shown::name(OsStr::new(word)), u64::MAX))
}

/// The four numbers of a row's line, or none for a line without a row.
fn line_row(line: &str) -> Result<Option<[u64; 4]>, String> {
    // a comment begins with a # at the start of the line or behind a blank
    let mut words = line.split_whitespace().take_while(|word| !word.starts_with('#'));
    match words.next() {
        Some("row") => {}
        Some(item) if !OTHER_ITEMS.contains(&item) => {
            let items = OTHER_ITEMS.join(", ");
            return Err(format!(
                "there is no item {} (there are row, {items})",
                shown::name(OsStr::new(item))
            ));
        }
        _ => return Ok(None),
    }
    let numbers = words.map(number).collect::<Result<Vec<u64>, String>>()?;
    <[u64; 4]>::try_from(numbers).map(Some).map_err(|numbers| {
        format!(
            "a row has four numbers, namespace, type, form and parameter; here are {}",
            numbers.len()
        )
    })
}

/// The refusal of a book as a whole, where it is one for its bytes and not for its table.
fn book_refusal(bytes: &[u8]) -> Option<Refusal> {
    let (_, answer) = Figures::empty().add(bytes);
    answer
        .err()
        .filter(|refusal| (numbers::BOOK_CUT..=numbers::BOOK_TOO_LONG).contains(&refusal.number))
}

impl Table {
    /// Reads the rows of a file. A book that is cut short, goes on or is too long is refused, with 70 to 72.
    pub fn read(file: &OsStr) -> Result<Table, Stop> {
        let bytes = input::file(file)?;
        let mut table = Table {
            name: shown::name(file),
            ..Table::default()
        };
        if bytes.first().is_some_and(|front| BOOK_FRONTS.contains(front)) {
            table.take_book(&bytes)?;
        } else {
            table.take_text(&String::from_utf8_lossy(input::unmarked(&bytes)))?;
        }
        Ok(table)
    }

    /// Takes the rows at the front of a book: a count of two bytes, and four numbers of eight bytes each.
    fn take_book(&mut self, bytes: &[u8]) -> Result<(), Refused> {
        if let Some(refusal) = book_refusal(bytes) {
            return Err(Refused::of_table(refusal, format!("the book {}", self.name), None));
        }
        let (count, rest) = bytes.split_at(2);
        let size = 32 * usize::from(u16::from_be_bytes([count[0], count[1]]));
        let eight = |number: &[u8]| number.iter().fold(0, |value, &byte| value << 8 | u64::from(byte));
        self.numbers.extend(rest[..size].chunks_exact(8).map(eight));
        Ok(())
    }

    /// Takes the rows of a text, and passes over the other items that make a book.
    fn take_text(&mut self, text: &str) -> Result<(), Fault> {
        for (count, line) in text.split('\n').enumerate() {
            let row = line_row(line).map_err(|words| Fault::no_output(format!("{}, line {}: {words}", self.name, count + 1)))?;
            if let Some(row) = row {
                self.numbers.extend(row);
                self.lines.push(count + 1);
            }
        }
        Ok(())
    }

    /// How many rows there are.
    pub fn rows(&self) -> u64 {
        self.numbers.len() as u64 / 4
    }

    /// Whether the rows are a table; a refusal names the first bad row.
    pub fn check(&self) -> Result<(), Refused> {
        let Err(refusal) = table::check(&self.numbers) else {
            return Ok(());
        };
        let at = if refusal.number == numbers::TABLE_SHAPE {
            MOST_ROWS
        } else {
            self.first_bad()
        };
        let row = RowPlace {
            row: at + 1,
            line: self.lines.get(at).copied(),
        };
        let line = row.line.map_or(String::new(), |line| format!(", line {line}"));
        let numbers: Vec<String> = self.numbers[4 * at..][..4].iter().map(u64::to_string).collect();
        let place = format!("row {} of {}{line}: {}", row.row, self.name, numbers.join(" "));
        Err(Refused::of_table(refusal, place, Some(row)))
    }

    /// The first row, from 0, with which the rows are no table any more; rows are judged one after the other.
    fn first_bad(&self) -> usize {
        let rows = self.numbers.len() / 4;
        (0..rows)
            .find(|row| table::check(&self.numbers[..4 * row + 4]).is_err())
            .unwrap_or(0)
    }
}

#[cfg(test)]
mod tests {
    use super::*;

    #[test]
    fn numbers_are_decimal_or_hexadecimal() {
        assert_eq!(number("007"), Ok(7));
        assert_eq!(number("0XfF"), Ok(255));
        assert_eq!(number("18446744073709551615"), Ok(u64::MAX));
        assert_eq!(
            number("18446744073709551616"),
            Err("'18446744073709551616' is over 18446744073709551615".to_string())
        );
        for word in ["", "0x", "-1", "+1", "1.0", "x", "0xg", "٣"] {
            assert_eq!(number(word), Err(format!("'{word}' is not a number")));
        }
    }

    #[test]
    fn a_line_is_a_row_or_is_passed_over() {
        assert_eq!(line_row(" row 0\t0x1 2 8 # amount\r"), Ok(Some([0, 1, 2, 8])));
        for line in [
            "",
            "\r",
            "# row 0 1 2 8",
            " #",
            "stream 0 zz",
            "message",
            "invoice a#b",
            "invoice-hex 6c",
        ] {
            assert_eq!(line_row(line), Ok(None));
        }
        assert!(line_row("row 0 1 2").unwrap_err().ends_with("here are 3"));
        assert!(line_row("row 0 1 2 #8").unwrap_err().ends_with("here are 3"));
        assert!(line_row("rows 0 1 2 8").unwrap_err().starts_with("there is no item 'rows'"));
        assert_eq!(line_row("row 0 1 2 8#"), Err("'8#' is not a number".to_string()));
    }
}

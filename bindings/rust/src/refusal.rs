use core::fmt;

use crate::numbers;

/// Why a question was refused.
///
/// It is written as `refused 7 at 0 type 18: the type is even, and the table does not know it`, without the place or the type where its
/// number has none, and of what is cut short as `refused 6 at 0 type 1 missing 5: the value is cut short`.
///
/// It is the archive's own struct, and `missing` is new in 0.3.0, so that this and every answer of the archive has another layout than
/// before: a program is compiled anew with crate and archive of one version ([`version`](crate::version)).
#[derive(Clone, Copy, Debug, PartialEq, Eq, Hash)]
#[non_exhaustive]
#[repr(C)]
pub struct Refusal {
    /// One of [`numbers`](crate::numbers).
    pub number: u8,
    /// Of a stream or a message, the first byte of the innermost faulty record; of a stream that is written, the faulty triple; of an invoice, the
    /// first bad character; of a field, the first bad group; else 0.
    pub place: usize,
    /// The type of the faulty record, triple or message; else 0.
    pub kind: u64,
    /// How many bytes are missing from what is cut short. With 1 from the type or the BigSize, with 4 from the length: 1 to 8, which is what the
    /// first byte announces less what is there, and 1 for a length that is not begun. With 6 from the value: its length less what is there, up to
    /// 2^64 - 1. With 13: 1. In a stream inside a record it is counted to the end of that record's value. Else 0.
    pub missing: u64,
}

/// What lacks bytes and how many, written in words: `the value lacks 5 bytes`.
#[derive(Clone, Copy, Debug, PartialEq, Eq, Hash)]
pub struct Lack {
    what: &'static str,
    missing: u64,
}

impl Refusal {
    /// What is wrong, in words: those of [`numbers::meaning`].
    ///
    /// ```
    /// let refusal = tockplover::bigsize::read(&[]).unwrap_err();
    /// assert_eq!(refusal.meaning(), "there is no byte to read a BigSize from");
    /// ```
    pub fn meaning(&self) -> &'static str {
        numbers::meaning(self.number)
    }

    /// What to do about it, in words: those of [`numbers::advice`].
    ///
    /// ```
    /// let refusal = tockplover::bigsize::read(&[]).unwrap_err();
    /// assert_eq!(refusal.advice(), "give at least one byte, which the refusal tells as missing; a number is never empty");
    /// ```
    pub fn advice(&self) -> &'static str {
        numbers::advice(self.number)
    }

    /// What lacks how many bytes, in words for people; none where nothing is cut short.
    ///
    /// ```
    /// let lack = |stream: &[u8]| tockplover::stream::count(&[], 0, stream).unwrap_err().lack();
    /// assert_eq!(lack(&[1, 5]).unwrap().to_string(), "the value lacks 5 bytes");
    /// assert_eq!(lack(&[1]).unwrap().to_string(), "the length lacks 1 byte");
    /// assert_eq!(lack(&[0x12, 0]), None);
    /// ```
    pub fn lack(&self) -> Option<Lack> {
        let what = match self.number {
            numbers::TYPE_CUT => "type or BigSize",
            numbers::LENGTH_CUT => "length",
            numbers::VALUE_CUT => "value",
            numbers::NOTHING_TO_READ => "BigSize",
            _ => return None,
        };
        let missing = self.missing;
        Some(Lack { what, missing })
    }

    /// Whether the number goes with a type, which may be 0. With 1 and 2 there is one only where it is a triple's.
    fn has_type(&self) -> bool {
        matches!(self.number, 3..=11 | 15 | 16 | 20 | 22 | 80) || self.kind != 0
    }

    /// Whether the number goes with a place, which may be 0.
    fn has_place(&self) -> bool {
        self.has_type() || matches!(self.number, 1 | 2 | 31 | 34) || self.place != 0
    }
}

impl fmt::Display for Refusal {
    fn fmt(&self, f: &mut fmt::Formatter<'_>) -> fmt::Result {
        write!(f, "refused {}", self.number)?;
        if self.has_place() {
            write!(f, " at {}", self.place)?;
        }
        if self.has_type() {
            write!(f, " type {}", self.kind)?;
        }
        if self.missing > 0 {
            write!(f, " missing {}", self.missing)?;
        }
        write!(f, ": {}", self.meaning())
    }
}

impl fmt::Display for Lack {
    fn fmt(&self, f: &mut fmt::Formatter<'_>) -> fmt::Result {
        let plural = if self.missing == 1 { "" } else { "s" };
        write!(f, "the {} lacks {} byte{plural}", self.what, self.missing)
    }
}

impl core::error::Error for Refusal {}

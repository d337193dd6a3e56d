//! The table of known types: a run of 64-bit numbers, four to a row (namespace 0 to 63, type, form, parameter), at most 256 rows, rising by
//! namespace, then type.
//!
//! | form | value | parameter |
//! |---|---|---|
//! | 0 | any bytes | 0 |
//! | 1 | exactly n bytes | n, 0 to 65,535 |
//! | 2 | integer of at most n bytes, no leading zero byte; empty is zero | 2, 4 or 8 |
//! | 3 | zero or more items of n bytes | 1 to 65,535 |
//! | 4 | compressed point, then n bytes | 0 to 65,502 |
//! | 5 | a stream in namespace n | 0 to 63 |
//! | 6 | an [address descriptor](crate::address) | 0 |
use crate::raw;
use crate::Refusal;

/// Whether a newer table holds every row of an older one unchanged.
#[derive(Clone, Copy, Debug, PartialEq, Eq)]
pub enum Extension {
    /// It does.
    Extends,
    /// The first row of the older table, from 0, that the newer lacks or has otherwise.
    Lacks(usize),
    /// The older is no table.
    OlderRefused(Refusal),
    /// The newer is no table.
    NewerRefused(Refusal),
}

/// Whether a run of numbers is a table; every question that takes a table asks this first. Refused: 60, then row by row 61, 62, 63.
///
/// ```
/// assert!(tockplover::table::check(&[0, 1, 2, 8, 0, 3, 0, 0]).is_ok());
/// assert_eq!(tockplover::table::check(&[0, 1, 2]).unwrap_err().number, tockplover::numbers::TABLE_SHAPE);
/// ```
pub fn check(table: &[u64]) -> Result<(), Refusal> {
    raw::accepted(raw::table_check(table))
}

/// Whether the newer table extends the older.
///
/// ```
/// use tockplover::table::{extends, Extension};
/// let (older, newer) = ([0, 1, 2, 8], [0, 1, 2, 8, 0, 3, 0, 0]);
/// assert_eq!(extends(&older, &newer), Extension::Extends);
/// assert_eq!(extends(&newer, &older), Extension::Lacks(1));
/// ```
pub fn extends(older: &[u64], newer: &[u64]) -> Extension {
    let answer = raw::table_extends(older, newer);
    match answer.outcome {
        raw::ACCEPTED => Extension::Extends,
        raw::OLDER_REFUSED => Extension::OlderRefused(answer.refusal),
        raw::LACKS => Extension::Lacks(answer.row),
        _ => Extension::NewerRefused(answer.refusal),
    }
}

//! The table of known types: a run of 64-bit numbers, four to a row (namespace, type, form, parameter).

use crate::refusal::{ensure, FORM, NAMESPACE, ROWS_NOT_RISING, TABLE_SIZE};
use crate::Refusal;

/// Namespace, type, form and parameter.
pub type Row = [u64; 4];

/// The most rows that a table has.
pub const MOST_ROWS: usize = 256;

/// The highest namespace.
pub const LAST_NAMESPACE: u64 = 63;

/// Any bytes.
pub const ANY: u64 = 0;
/// Exactly n bytes.
pub const EXACT: u64 = 1;
/// Integer of at most n bytes without a leading zero byte.
pub const INTEGER: u64 = 2;
/// Zero or more items of n bytes.
pub const ITEMS: u64 = 3;
/// Compressed point, then n bytes.
pub const POINT: u64 = 4;
/// A stream in namespace n.
pub const STREAM: u64 = 5;
/// An address descriptor.
pub const ADDRESS: u64 = 6;

/// Judges a table: 60, then row by row 61, 62, 63.
pub fn check(table: &[u64]) -> Result<(), Refusal> {
    let (rows, rest) = table.as_chunks::<4>();
    ensure(rest.is_empty() && rows.len() <= MOST_ROWS, Refusal::bare(TABLE_SIZE))?;
    let mut before = None;
    for &[namespace, kind, form, parameter] in rows {
        let this = Some((namespace, kind));
        ensure(namespace <= LAST_NAMESPACE, Refusal::bare(NAMESPACE))?;
        ensure(before < this, Refusal::bare(ROWS_NOT_RISING))?;
        ensure(allowed(form, parameter), Refusal::bare(FORM))?;
        before = this;
    }
    Ok(())
}

/// Whether a form is one of the list and may have this parameter.
fn allowed(form: u64, parameter: u64) -> bool {
    match form {
        ANY | ADDRESS => parameter == 0,
        EXACT => parameter <= 65_535,
        INTEGER => matches!(parameter, 2 | 4 | 8),
        ITEMS => (1..=65_535).contains(&parameter),
        POINT => parameter <= 65_502,
        STREAM => parameter <= LAST_NAMESPACE,
        _ => false,
    }
}

/// The whole rows of a table.
pub(crate) fn rows(table: &[u64]) -> &[Row] {
    table.as_chunks().0
}

/// Form and parameter of a type in an accepted table, found by the rows' order.
pub fn find_row(table: &[u64], namespace: u64, kind: u64) -> Option<(u64, u64)> {
    let rows = rows(table);
    let found = rows.binary_search_by(|row| (row[0], row[1]).cmp(&(namespace, kind)));
    found.ok().map(|i| (rows[i][2], rows[i][3]))
}

/// Form and parameter of a type's first row in any run of numbers, found by walking the rows.
pub fn walk_rows(table: &[u64], namespace: u64, kind: u64) -> Option<(u64, u64)> {
    let row = rows(table).iter().find(|row| row[0] == namespace && row[1] == kind);
    row.map(|row| (row[2], row[3]))
}

/// Whether a newer table holds every row of an older one unchanged.
#[derive(Clone, Copy, Debug, PartialEq, Eq)]
pub enum Extension {
    /// It does.
    Extends,
    /// The older table's row with this number, from 0, is missing or changed; it is the first such.
    Lacks(usize),
    /// The older table is refused.
    OlderRefused(Refusal),
    /// The newer table is refused, and the older is not.
    NewerRefused(Refusal),
}

/// Compares an older table with a newer one.
pub fn extends(older: &[u64], newer: &[u64]) -> Extension {
    if let Err(refusal) = check(older) {
        return Extension::OlderRefused(refusal);
    }
    if let Err(refusal) = check(newer) {
        return Extension::NewerRefused(refusal);
    }
    // Both rise, so the search for a row goes on behind the one found before.
    let mut candidates = rows(newer).iter();
    match rows(older).iter().position(|row| !candidates.any(|candidate| candidate == row)) {
        Some(row) => Extension::Lacks(row),
        None => Extension::Extends,
    }
}

/// How the rows of a stream's namespace are searched; the types asked for rise, as they do in a stream.
pub(crate) trait Search<'t>: Sized {
    fn new(rows: &'t [Row], namespace: u64) -> Self;
    fn find(&mut self, kind: u64) -> Option<&'t Row>;
}

/// Search by halving among the rows that no earlier type has passed.
pub(crate) struct Halving<'t> {
    left: &'t [Row],
}

impl<'t> Search<'t> for Halving<'t> {
    fn new(rows: &'t [Row], namespace: u64) -> Self {
        let rows = &rows[rows.partition_point(|row| row[0] < namespace)..];
        Self { left: &rows[..rows.partition_point(|row| row[0] == namespace)] }
    }

    fn find(&mut self, kind: u64) -> Option<&'t Row> {
        // Most types of a stream lie before the next row's, or at it.
        if self.left.first()?[1] < kind {
            self.left = &self.left[self.left.partition_point(|row| row[1] < kind)..];
        }
        self.left.first().filter(|row| row[1] == kind)
    }
}

/// Search that walks all rows from the first.
pub(crate) struct Walking<'t> {
    rows: &'t [Row],
    namespace: u64,
}

impl<'t> Search<'t> for Walking<'t> {
    fn new(rows: &'t [Row], namespace: u64) -> Self {
        Self { rows, namespace }
    }

    fn find(&mut self, kind: u64) -> Option<&'t Row> {
        self.rows.iter().find(|row| row[0] == self.namespace && row[1] == kind)
    }
}

#[cfg(test)]
mod tests {
    use super::*;

    fn number(table: &[u64]) -> u8 {
        check(table).map_or_else(|refusal| refusal.number, |()| 0)
    }

    #[test]
    fn refusals_in_order() {
        assert_eq!(number(&[]), 0);
        assert_eq!(number(&[0, 1, 2]), 60);
        assert_eq!(number(&[0; 257 * 4]), 60);
        assert_eq!(number(&[64, 1, 9, 8]), 61);
        assert_eq!(number(&[1, 1, 0, 0, 1, 1, 9, 0]), 62);
        assert_eq!(number(&[1, 1, 0, 0, 0, 2, 0, 0]), 62);
        assert_eq!(number(&[1, 1, 9, 0, 64, 1, 0, 0]), 63);
        assert_eq!(number(&[1, 5, 0, 0, 2, 1, 0, 0]), 0);
    }

    #[test]
    fn forms_and_parameters() {
        let cases: [(u64, &[u64], &[u64]); 9] = [
            (0, &[0], &[1, u64::MAX]),
            (1, &[0, 65_535], &[65_536]),
            (2, &[2, 4, 8], &[0, 1, 3, 5, 16, (1 << 32) + 2]),
            (3, &[1, 65_535], &[0, 65_536]),
            (4, &[0, 65_502], &[65_503]),
            (5, &[0, 63], &[64]),
            (6, &[0], &[1, 63, u64::MAX]),
            (7, &[], &[0, 1]),
            ((1 << 32) + 2, &[], &[0, 2, 8]),
        ];
        for (form, good, bad) in cases {
            assert!(good.iter().all(|&n| number(&[0, 0, form, n]) == 0));
            assert!(bad.iter().all(|&n| number(&[0, 0, form, n]) == 63));
        }
    }

    #[test]
    fn rows_are_found() {
        let table = [0, 1, 2, 8, 0, 3, 0, 0, 2, 0, 1, 5];
        for namespace in 0..4 {
            for kind in 0..5 {
                assert_eq!(find_row(&table, namespace, kind), walk_rows(&table, namespace, kind));
                let mut halving = Halving::new(rows(&table), namespace);
                let found = halving.find(kind).map(|row| (row[2], row[3]));
                assert_eq!(found, walk_rows(&table, namespace, kind));
            }
        }
        assert_eq!(find_row(&table, 2, 0), Some((1, 5)));
    }

    #[test]
    fn extensions() {
        let older = [0, 1, 2, 8, 0, 3, 0, 0];
        let newer = [0, 1, 2, 8, 0, 2, 1, 1, 0, 3, 0, 0, 1, 0, 0, 0];
        assert_eq!(extends(&older, &newer), Extension::Extends);
        assert_eq!(extends(&[], &[]), Extension::Extends);
        assert_eq!(extends(&newer, &older), Extension::Lacks(1));
        assert_eq!(extends(&older, &[0, 1, 2, 4, 0, 3, 0, 0]), Extension::Lacks(0));
        assert_eq!(extends(&[1], &[64, 0, 0, 0]), Extension::OlderRefused(Refusal::bare(60)));
        assert_eq!(extends(&older, &[64, 0, 0, 0]), Extension::NewerRefused(Refusal::bare(61)));
    }
}

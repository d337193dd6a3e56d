//! The stream writer: triples (type, start, length) over lent source bytes become a record stream.

use crate::bigsize;
use crate::output::Output;
use crate::refusal::{ensure, NO_ROOM, OUTSIDE, STREAM_TOO_LONG, TYPE_NOT_RISING, UNKNOWN_EVEN_TYPE};
use crate::stream::{accepted_rows, judge_value, Record, LONGEST};
use crate::table::{Halving, Row, Search};
use crate::{Part, Refusal};

/// Type, start and length.
type Triple = [u64; 3];

/// The length of the stream that the triples make, or a refusal other than 12.
pub fn measure(table: &[u64], namespace: u64, triples: &[u64], source: &[u8]) -> Result<usize, Refusal> {
    measure_rows(accepted_rows(table, namespace)?, namespace, triples, source)
}

/// Writes the stream that the triples make to the front of the output and gives its length.
pub fn write(table: &[u64], namespace: u64, triples: &[u64], source: &[u8], out: &mut [u8]) -> Result<usize, Refusal> {
    let length = measure(table, namespace, triples, source)?;
    let out = out.get_mut(..length).ok_or(Refusal::bare(NO_ROOM))?;
    put(triples, source, out);
    Ok(length)
}

/// Judges the triples by the rows of an accepted table and gives the stream's length.
pub(crate) fn measure_rows(rows: &[Row], namespace: u64, triples: &[u64], source: &[u8]) -> Result<usize, Refusal> {
    let (triples, rest) = triples.as_chunks::<3>();
    ensure(rest.is_empty(), Refusal::bare(OUTSIDE))?;
    let mut search = Halving::new(rows, namespace);
    let mut last = None;
    let mut total = 0_usize;
    for (place, triple) in triples.iter().enumerate() {
        let kind = triple[0];
        let refuse = |number| Refusal::at(number, place, kind);
        let value = part_of(triple, source).ok_or(refuse(OUTSIDE))?;
        ensure(last < Some(kind), refuse(TYPE_NOT_RISING))?;
        let row = search.find(kind);
        ensure(row.is_some() || kind % 2 == 1, refuse(UNKNOWN_EVEN_TYPE))?;
        // A nested fault, too, is told with the row and its type; what is missing stays.
        judge_value::<Halving>(rows, source, &Record { place, kind, value, row }, 1)
            .map_err(|fault| Refusal::lacking(fault.number, place, kind, fault.missing))?;
        last = Some(kind);
        let head = bigsize::width(kind) + bigsize::width(value.length as u64);
        total = total.saturating_add(head).saturating_add(value.length);
    }
    ensure(total <= LONGEST, Refusal::bare(STREAM_TOO_LONG))?;
    Ok(total)
}

/// Where a triple's value lies, if it lies in the source.
fn part_of(&[_, start, length]: &Triple, source: &[u8]) -> Option<Part> {
    let end = start.checked_add(length)?;
    (end <= source.len() as u64).then_some(Part { start: start as usize, length: length as usize })
}

/// Puts the records of accepted triples into an output of exactly their length.
pub(crate) fn put(triples: &[u64], source: &[u8], out: &mut [u8]) {
    let mut output = Output::new(out);
    for triple in triples.as_chunks::<3>().0 {
        if let Some(value) = part_of(triple, source) {
            output.bigsize(triple[0]);
            output.bigsize(value.length as u64);
            output.bytes(&source[value.start..value.end()]);
        }
    }
}

#[cfg(test)]
mod tests {
    use super::*;

    const TABLE: [u64; 12] = [0, 1, 2, 8, 0, 6, 5, 0, 0, 8, 0, 0];

    fn refused(triples: &[u64], source: &[u8]) -> (u8, usize, u64) {
        let mut out = [0xa5; 64];
        let refusal = write(&TABLE, 0, triples, source, &mut out).unwrap_err();
        assert_eq!(out, [0xa5; 64]);
        (refusal.number, refusal.place, refusal.kind)
    }

    #[test]
    fn records_are_written() {
        let mut out = [0xa5; 12];
        let triples = [1, 2, 1, 6, 0, 2, 300 + 1, 3, 0];
        assert_eq!(write(&TABLE, 0, &triples, &[9, 0, 42], &mut out), Ok(11));
        assert_eq!(out, [1, 1, 42, 6, 2, 9, 0, 0xfd, 1, 45, 0, 0xa5]);
        assert_eq!(write(&TABLE, 0, &[], &[], &mut []), Ok(0));
    }

    #[test]
    fn refusals_name_the_row() {
        assert_eq!(refused(&[1, 0, 0, 3], &[]), (16, 0, 0));
        assert_eq!(refused(&[1, 0, 0, 18, 0, 2], &[0]), (16, 1, 18));
        assert_eq!(refused(&[1, u64::MAX, 1], &[0]), (16, 0, 1));
        assert_eq!(refused(&[3, 0, 0, 2, 0, 0], &[0]), (3, 1, 2));
        assert_eq!(refused(&[3, 0, 0, 3, 0, 0], &[0]), (3, 1, 3));
        assert_eq!(refused(&[3, 0, 0, 18, 0, 0], &[0]), (7, 1, 18));
        assert_eq!(refused(&[1, 0, 1], &[0]), (9, 0, 1));
        // A nested type that is cut keeps its number; place and type are the row's.
        assert_eq!(refused(&[1, 0, 0, 6, 0, 1], &[0xfd]), (1, 1, 6));
    }

    #[test]
    fn a_nested_cut_keeps_what_is_missing() {
        let refused = |source: &[u8]| measure(&TABLE, 0, &[1, 0, 0, 6, 0, source.len() as u64], source).unwrap_err();
        assert_eq!(refused(&[0xfd]), Refusal::lacking(1, 1, 6, 2));
        assert_eq!(refused(&[1]), Refusal::lacking(4, 1, 6, 1));
        assert_eq!(refused(&[9, 0xff, 0]), Refusal::lacking(4, 1, 6, 7));
        assert_eq!(refused(&[8, 5, 42]), Refusal::lacking(6, 1, 6, 4));
        assert_eq!(refused(&[0xff; 19]), Refusal::lacking(6, 1, 6, u64::MAX - 1));
        assert_eq!(refused(&[18, 0]), Refusal::at(7, 1, 6));
    }

    #[test]
    fn the_whole_output_is_measured() {
        let source = vec![0; 70_000];
        assert_eq!(measure(&TABLE, 0, &[9, 0, 65_531], &source), Ok(65_535));
        assert_eq!(measure(&TABLE, 0, &[9, 0, 65_532], &source), Err(Refusal::bare(14)));
        assert_eq!(measure(&TABLE, 0, &[9, 0, 65_532, 18, 0, 0], &source), Err(Refusal::at(7, 1, 18)));
        assert_eq!(write(&TABLE, 0, &[9, 0, 65_532], &source, &mut []), Err(Refusal::bare(14)));
        assert_eq!(write(&TABLE, 0, &[9, 0, 1], &source, &mut [0; 2]), Err(Refusal::bare(12)));
    }
}

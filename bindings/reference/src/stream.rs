//! Record streams: records of strictly rising type, each a BigSize type, a BigSize length and that many value bytes.

use crate::refusal::{
    ensure, LEADING_ZERO, LENGTH_CUT, LENGTH_NOT_SHORTEST, NAMESPACE, NO_ROOM, POINT_BYTE, STREAM_TOO_LONG, TOO_DEEP,
    TYPE_ABSENT, TYPE_NOT_RISING, TYPE_NOT_SHORTEST, UNKNOWN_EVEN_TYPE, VALUE_CUT, VALUE_LENGTH,
};
use crate::table::{self, Halving, Row, Search, Walking};
use crate::{address, bigsize, Part, Refusal};

/// The most bytes of a stream.
pub const LONGEST: usize = 65_535;

/// The deepest level of a stream; the outer one is level 1.
pub const LEVELS: u32 = 4;

/// The numbers of an index row: type, value start, value length, known (1 or 0).
pub const ROW_NUMBERS: usize = 4;

/// How many outer records there are, and how many of them are known.
#[derive(Clone, Copy, Debug, Default, PartialEq, Eq)]
pub struct Counts {
    /// Outer records.
    pub records: usize,
    /// Those that the table knows.
    pub known: usize,
}

/// A stream in lent bytes, from `begin` to their end, and what is needed to judge it.
#[derive(Clone, Copy)]
pub(crate) struct Stream<'a> {
    pub(crate) rows: &'a [Row],
    pub(crate) namespace: u64,
    pub(crate) bytes: &'a [u8],
    pub(crate) begin: usize,
}

/// A record whose frame is accepted: 1 to 7 are passed, the value is not judged.
#[derive(Clone, Copy)]
pub(crate) struct Record<'a> {
    pub(crate) place: usize,
    pub(crate) kind: u64,
    pub(crate) value: Part,
    pub(crate) row: Option<&'a Row>,
}

impl Record<'_> {
    fn refusal(&self, number: u8) -> Refusal {
        Refusal::at(number, self.place, self.kind)
    }
}

/// The records of a stream from its front, up to the first faulty frame.
struct Records<'a, S> {
    bytes: &'a [u8],
    at: usize,
    last: Option<u64>,
    search: S,
}

impl<'a, S: Search<'a>> Records<'a, S> {
    fn new(stream: &Stream<'a>) -> Self {
        Self { bytes: stream.bytes, at: stream.begin, last: None, search: S::new(stream.rows, stream.namespace) }
    }

    /// The record that begins at `at`, or 1 to 7 in this order.
    #[inline(always)]
    fn frame(&mut self) -> Result<Record<'a>, Refusal> {
        let place = self.at;
        let read = bigsize::parse(&self.bytes[place..])
            .map_err(|number| Refusal::lacking(number, place, 0, bigsize::missing(&self.bytes[place..])))?;
        let kind = read.value;
        let refuse = |number| Refusal::at(number, place, kind);
        ensure(self.last < Some(kind), refuse(TYPE_NOT_RISING))?;
        let behind = place + read.width;
        let length = bigsize::parse(&self.bytes[behind..]).map_err(|number| match number {
            TYPE_NOT_SHORTEST => refuse(LENGTH_NOT_SHORTEST),
            _ => Refusal::lacking(LENGTH_CUT, place, kind, bigsize::missing(&self.bytes[behind..])),
        })?;
        let start = behind + length.width;
        let there = (self.bytes.len() - start) as u64;
        if length.value > there {
            return Err(Refusal::lacking(VALUE_CUT, place, kind, length.value - there));
        }
        let row = self.search.find(kind);
        ensure(row.is_some() || kind % 2 == 1, refuse(UNKNOWN_EVEN_TYPE))?;
        Ok(Record { place, kind, value: Part { start, length: length.value as usize }, row })
    }
}

impl<'a, S: Search<'a>> Iterator for Records<'a, S> {
    type Item = Result<Record<'a>, Refusal>;

    #[inline(always)]
    fn next(&mut self) -> Option<Self::Item> {
        if self.at >= self.bytes.len() {
            return None;
        }
        let frame = self.frame();
        match &frame {
            Ok(record) => {
                self.at = record.value.end();
                self.last = Some(record.kind);
            }
            Err(_) => self.at = self.bytes.len(),
        }
        Some(frame)
    }
}

/// Judges a stream record by record, each value before the next type is read, and shows each accepted record.
fn judge<'a, S: Search<'a>>(
    stream: &Stream<'a>,
    level: u32,
    mut accepted: impl FnMut(&Record<'a>),
) -> Result<(), Refusal> {
    for record in Records::<S>::new(stream) {
        let record = record?;
        judge_value::<S>(stream.rows, stream.bytes, &record, level)?;
        accepted(&record);
    }
    Ok(())
}

/// Judges a known record's value where it lies in the bytes, by its row's form: 11, 8, then 9 or 10.
pub(crate) fn judge_value<'a, S: Search<'a>>(
    rows: &'a [Row],
    bytes: &'a [u8],
    record: &Record<'a>,
    level: u32,
) -> Result<(), Refusal> {
    let Some(&[_, _, form, parameter]) = record.row else {
        return Ok(());
    };
    let value = &bytes[record.value.start..record.value.end()];
    let length = value.len() as u64;
    let wrong_length = record.refusal(VALUE_LENGTH);
    match form {
        table::EXACT => ensure(length == parameter, wrong_length),
        table::INTEGER => {
            ensure(length <= parameter, wrong_length)?;
            ensure(value.first() != Some(&0), record.refusal(LEADING_ZERO))
        }
        table::ITEMS => ensure(length.is_multiple_of(parameter), wrong_length),
        table::POINT => {
            ensure(length.checked_sub(33) == Some(parameter), wrong_length)?;
            ensure(matches!(value[0], 2 | 3), record.refusal(POINT_BYTE))
        }
        table::STREAM => {
            ensure(level < LEVELS, record.refusal(TOO_DEEP))?;
            let bytes = &bytes[..record.value.end()];
            let inner = Stream { rows, namespace: parameter, bytes, begin: record.value.start };
            judge::<S>(&inner, level + 1, |_| ())
        }
        table::ADDRESS => ensure(address::is_descriptor(value), wrong_length),
        _ => Ok(()),
    }
}

/// The stream in the lent bytes from `begin` on, once the table, the namespace and the length are accepted.
fn lent<'a>(begin: usize, table: &'a [u64], namespace: u64, bytes: &'a [u8]) -> Result<Stream<'a>, Refusal> {
    let stream = Stream { rows: accepted_rows(table, namespace)?, namespace, bytes, begin };
    ensure(bytes.len().saturating_sub(begin) <= LONGEST, Refusal::bare(STREAM_TOO_LONG))?;
    Ok(stream)
}

/// The rows of an accepted table, asked for an accepted namespace.
pub(crate) fn accepted_rows(table: &[u64], namespace: u64) -> Result<&[Row], Refusal> {
    table::check(table)?;
    ensure(namespace <= table::LAST_NAMESPACE, Refusal::bare(NAMESPACE))?;
    Ok(table::rows(table))
}

/// The counts of a stream whose table, namespace and length are accepted.
pub(crate) fn tally(stream: &Stream) -> Result<Counts, Refusal> {
    tally_by::<Halving>(stream)
}

/// The same with a row search that walks the rows.
pub(crate) fn tally_walking(stream: &Stream) -> Result<Counts, Refusal> {
    tally_by::<Walking>(stream)
}

fn tally_by<'a, S: Search<'a>>(stream: &Stream<'a>) -> Result<Counts, Refusal> {
    let mut counts = Counts::default();
    judge::<S>(stream, 1, |record| {
        counts.records += 1;
        counts.known += usize::from(record.row.is_some());
    })?;
    Ok(counts)
}

/// 12 unless the index has room for so many rows.
pub(crate) fn ensure_room(index: &[u64], records: usize) -> Result<(), Refusal> {
    ensure(index.len() / ROW_NUMBERS >= records, Refusal::bare(NO_ROOM))
}

/// The outer records of an accepted stream.
pub(crate) fn records<'a>(stream: &Stream<'a>) -> impl Iterator<Item = Record<'a>> {
    records_by::<Halving>(stream)
}

/// The same with a row search that walks the rows.
pub(crate) fn records_walking<'a>(stream: &Stream<'a>) -> impl Iterator<Item = Record<'a>> {
    records_by::<Walking>(stream)
}

fn records_by<'a, S: Search<'a>>(stream: &Stream<'a>) -> impl Iterator<Item = Record<'a>> {
    Records::<S>::new(stream).map_while(Result::ok)
}

/// Fills the front of the index with the rows of an accepted stream.
pub(crate) fn fill(stream: &Stream, index: &mut [u64]) {
    fill_by::<Halving>(stream, index);
}

fn fill_by<'a, S: Search<'a>>(stream: &Stream<'a>, index: &mut [u64]) {
    for (record, numbers) in records_by::<S>(stream).zip(index.as_chunks_mut().0) {
        let Part { start, length } = record.value;
        *numbers = [record.kind, start as u64, length as u64, record.row.is_some().into()];
    }
}

/// Counts the outer records of a stream.
pub fn count(table: &[u64], namespace: u64, stream: &[u8]) -> Result<Counts, Refusal> {
    count_from(0, table, namespace, stream)
}

/// Counts the outer records of the stream that lies in the bytes from `begin` on; places count from the first byte.
pub fn count_from(begin: usize, table: &[u64], namespace: u64, bytes: &[u8]) -> Result<Counts, Refusal> {
    tally(&lent(begin, table, namespace, bytes)?)
}

/// Counts like [`count`], with a row search that walks the rows: the baseline for searches by the rows' order.
pub fn count_walking(table: &[u64], namespace: u64, stream: &[u8]) -> Result<Counts, Refusal> {
    tally_walking(&lent(0, table, namespace, stream)?)
}

/// Reads a stream: four numbers for each outer record at the front of the index.
pub fn read(table: &[u64], namespace: u64, stream: &[u8], index: &mut [u64]) -> Result<Counts, Refusal> {
    read_from(0, table, namespace, stream, index)
}

/// Reads the stream that lies in the bytes from `begin` on; places and starts count from the first byte.
pub fn read_from(
    begin: usize,
    table: &[u64],
    namespace: u64,
    bytes: &[u8],
    index: &mut [u64],
) -> Result<Counts, Refusal> {
    let stream = lent(begin, table, namespace, bytes)?;
    let counts = tally(&stream)?;
    ensure_room(index, counts.records)?;
    fill(&stream, index);
    Ok(counts)
}

/// Reads like [`read`], with a row search that walks the rows, as [`count_walking`] does.
pub fn read_walking(table: &[u64], namespace: u64, stream: &[u8], index: &mut [u64]) -> Result<Counts, Refusal> {
    let stream = lent(0, table, namespace, stream)?;
    let counts = tally_walking(&stream)?;
    ensure_room(index, counts.records)?;
    fill_by::<Walking>(&stream, index);
    Ok(counts)
}

/// Where the value of the outer record with this type lies; the stream's refusal comes before 15.
pub fn locate(table: &[u64], namespace: u64, stream: &[u8], kind: u64) -> Result<Part, Refusal> {
    let mut found = None;
    judge::<Halving>(&lent(0, table, namespace, stream)?, 1, |record| {
        if record.kind == kind {
            found = Some(record.value);
        }
    })?;
    found.ok_or(Refusal::at(TYPE_ABSENT, 0, kind))
}

/// Whether a type is among the outer records: yes, the stream's refusal, or 15.
pub fn contains(table: &[u64], namespace: u64, stream: &[u8], kind: u64) -> Result<(), Refusal> {
    locate(table, namespace, stream, kind).map(|_| ())
}

/// The value of the outer record with this type as a part of the lent stream, empty without a yes.
pub fn value<'a>(table: &[u64], namespace: u64, stream: &'a [u8], kind: u64) -> &'a [u8] {
    match locate(table, namespace, stream, kind) {
        Ok(part) => &stream[part.start..part.end()],
        Err(_) => &[],
    }
}

#[cfg(test)]
mod tests {
    use super::*;

    /// Namespace 0: an integer, a meter inside the meter, and a note.
    const METERS: [u64; 12] = [0, 1, 2, 8, 0, 6, 5, 0, 0, 8, 0, 0];

    #[test]
    fn levels() {
        let four = [6, 6, 6, 4, 6, 2, 1, 0];
        assert_eq!(count(&METERS, 0, &four), Ok(Counts { records: 1, known: 1 }));
        let five = [6, 6, 6, 4, 6, 2, 6, 0];
        assert_eq!(count(&METERS, 0, &five), Err(Refusal::at(11, 6, 6)));
        // The record's own frame goes before 11.
        assert_eq!(count(&METERS, 0, &[6, 6, 6, 4, 6, 2, 6, 1]), Err(Refusal::lacking(6, 6, 6, 1)));
    }

    #[test]
    fn a_nested_value_ends_with_its_own_stream() {
        // What is missing is counted to that end too, whatever stands behind it.
        assert_eq!(count(&METERS, 0, &[6, 2, 1, 5, 8, 0]), Err(Refusal::lacking(6, 2, 1, 5)));
        assert_eq!(count(&METERS, 0, &[6, 1, 1, 8, 0]), Err(Refusal::lacking(4, 2, 1, 1)));
        assert_eq!(count(&METERS, 0, &[6, 1, 0xfd, 8, 0]), Err(Refusal::lacking(1, 2, 0, 2)));
        // A nested type may be below the outer one, and the next outer type is above the outer one only.
        assert_eq!(count(&METERS, 0, &[6, 2, 8, 0, 7, 0]), Ok(Counts { records: 2, known: 1 }));
    }

    #[test]
    fn order_of_refusals() {
        let long = vec![0; LONGEST + 1];
        assert_eq!(count(&[64, 0, 0, 0], 64, &long), Err(Refusal::bare(61)));
        assert_eq!(count(&[1], 64, &long), Err(Refusal::bare(60)));
        assert_eq!(count(&METERS, 64, &long), Err(Refusal::bare(61)));
        assert_eq!(count(&METERS, 0, &long), Err(Refusal::bare(14)));
        // 6 before 7, 7 before 12.
        assert_eq!(read(&METERS, 0, &[18, 5, 0], &mut []), Err(Refusal::lacking(6, 0, 18, 4)));
        assert_eq!(read(&METERS, 0, &[1, 0, 18, 0], &mut []), Err(Refusal::at(7, 2, 18)));
        assert_eq!(read(&METERS, 0, &[1, 0], &mut [7; 3]), Err(Refusal::bare(12)));
    }

    #[test]
    fn an_index_is_filled_at_its_front() {
        let mut index = [9; 10];
        assert_eq!(read(&METERS, 0, &[1, 1, 42, 9, 2, 0, 0], &mut index), Ok(Counts { records: 2, known: 1 }));
        assert_eq!(index, [1, 2, 1, 1, 9, 5, 2, 0, 9, 9]);
    }

    #[test]
    fn a_stream_behind_other_bytes() {
        let bytes = [0xff, 0xff, 1, 1, 42, 18, 0];
        let mut index = [9; 5];
        assert_eq!(read_from(2, &METERS, 0, &bytes[..5], &mut index), Ok(Counts { records: 1, known: 1 }));
        assert_eq!(index, [1, 4, 1, 1, 9]);
        assert_eq!(count_from(2, &METERS, 0, &bytes), Err(Refusal::at(7, 5, 18)));
        assert_eq!(count_from(7, &METERS, 0, &bytes), Ok(Counts::default()));
        assert_eq!(count_from(usize::MAX, &METERS, 0, &bytes), Ok(Counts::default()));
    }

    #[test]
    fn a_type_is_asked_for() {
        let stream = [1, 1, 42, 9, 2, 7, 8];
        assert_eq!(locate(&METERS, 0, &stream, 9), Ok(Part { start: 5, length: 2 }));
        assert_eq!(value(&METERS, 0, &stream, 9), [7, 8]);
        assert_eq!(contains(&METERS, 0, &stream, 1), Ok(()));
        assert_eq!(contains(&METERS, 0, &stream, 8), Err(Refusal::at(15, 0, 8)));
        assert_eq!(value(&METERS, 0, &stream, 8), []);
        // The stream's refusal goes before the yes.
        assert_eq!(contains(&METERS, 0, &[1, 0, 18, 0], 1), Err(Refusal::at(7, 2, 18)));
        assert_eq!(value(&METERS, 0, &[1, 1, 42, 18, 0], 1), []);
    }
}

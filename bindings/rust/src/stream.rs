//! Record streams: judged by a table of known types, read, and written.
use crate::numbers::TYPE_ABSENT;
use crate::raw;
use crate::Refusal;

/// No stream has more bytes.
pub const MOST: usize = 65_535;

/// The counts of a stream's outer records and of the known ones among them.
#[derive(Clone, Copy, Debug, PartialEq, Eq)]
#[non_exhaustive]
pub struct Counts {
    /// All outer records.
    pub records: usize,
    /// Those whose type the table knows.
    pub known: usize,
}

/// A record of a stream.
#[derive(Clone, Copy, Debug, PartialEq, Eq)]
#[non_exhaustive]
pub struct Record<'s> {
    /// Its type.
    pub kind: u64,
    /// Its value, a part of the bytes that were read.
    pub value: &'s [u8],
    /// Whether the table knows its type.
    pub known: bool,
}

/// A stream that was read.
#[derive(Clone, Copy, Debug, PartialEq, Eq)]
pub struct Reading<'s, 'i> {
    bytes: &'s [u8],
    rows: &'i [u64],
    known: usize,
}

impl<'s, 'i> Reading<'s, 'i> {
    pub(crate) fn new(bytes: &'s [u8], rows: &'i [u64], known: usize) -> Self {
        Reading { bytes, rows, known }
    }

    /// The counts.
    pub fn counts(&self) -> Counts {
        Counts {
            records: self.rows.len() / 4,
            known: self.known,
        }
    }

    /// The rows of the index: for each outer record its type, its value's start and length, and 1 where the table knows the type, else 0.
    pub fn rows(&self) -> &'i [u64] {
        self.rows
    }

    /// The outer records, in their order.
    pub fn records(&self) -> impl Iterator<Item = Record<'s>> + use<'s, 'i> {
        let bytes = self.bytes;
        self.rows.chunks_exact(4).map(move |row| Record {
            kind: row[0],
            value: &bytes[row[1] as usize..][..row[2] as usize],
            known: row[3] == 1,
        })
    }
}

/// Judges a stream and counts its outer records. Refused: the table's 60 to 63, 61 for a namespace over 63, 14, then record by record 1 to 11,
/// of which 1, 4 and 6 tell how many bytes are missing.
///
/// ```
/// let counts = tockplover::stream::count(&[0, 1, 2, 8], 0, &[1, 0, 3, 1, 7])?;
/// assert_eq!((counts.records, counts.known), (2, 1));
/// # Ok::<(), tockplover::Refusal>(())
/// ```
pub fn count(table: &[u64], namespace: u64, stream: &[u8]) -> Result<Counts, Refusal> {
    let answer = raw::stream_count(table, namespace, stream);
    raw::accepted(answer.refusal)?;
    Ok(Counts {
        records: answer.records,
        known: answer.known,
    })
}

/// Reads a stream into an index of four numbers to an outer record; twice as many numbers as the stream has bytes always suffice.
/// Refused: as [`count`], then 12.
///
/// ```
/// let mut index = [0; 16];
/// let stream = tockplover::stream::read(&[0, 1, 2, 8], 0, &[1, 0, 3, 1, 7], &mut index)?;
/// let kinds: Vec<u64> = stream.records().map(|record| record.kind).collect();
/// assert_eq!(kinds, [1, 3]);
/// # Ok::<(), tockplover::Refusal>(())
/// ```
pub fn read<'s, 'i>(table: &[u64], namespace: u64, stream: &'s [u8], index: &'i mut [u64]) -> Result<Reading<'s, 'i>, Refusal> {
    let answer = raw::stream_read(table, namespace, stream, index);
    raw::accepted(answer.refusal)?;
    Ok(Reading::new(stream, &index[..4 * answer.records], answer.known))
}

/// Whether a type is among the outer records, known or not. Refused: as [`count`].
///
/// ```
/// assert_eq!(tockplover::stream::contains(&[], 0, &[3, 1, 7], 3), Ok(true));
/// assert_eq!(tockplover::stream::contains(&[], 0, &[3, 1, 7], 5), Ok(false));
/// ```
pub fn contains(table: &[u64], namespace: u64, stream: &[u8], kind: u64) -> Result<bool, Refusal> {
    let refusal = raw::stream_contains(table, namespace, stream, kind);
    if refusal.number == TYPE_ABSENT {
        return Ok(false);
    }
    raw::accepted(refusal)?;
    Ok(true)
}

/// The value of a type, a part of the stream; none where no outer record has the type. Refused: as [`count`].
///
/// ```
/// assert_eq!(tockplover::stream::value(&[], 0, &[3, 1, 7], 3), Ok(Some(&[7][..])));
/// assert_eq!(tockplover::stream::value(&[], 0, &[3, 1, 7], 5), Ok(None));
/// ```
pub fn value<'s>(table: &[u64], namespace: u64, stream: &'s [u8], kind: u64) -> Result<Option<&'s [u8]>, Refusal> {
    let answer = raw::stream_value(table, namespace, stream, kind);
    if answer.refusal.number == TYPE_ABSENT {
        return Ok(None);
    }
    raw::accepted(answer.refusal)?;
    Ok(Some(&stream[answer.start..][..answer.size]))
}

/// Writes a stream from triples (type, start, length), each of which names a value in the source. Refused: the table's 60 to 63, 61 for a
/// namespace over 63, 16 for triples not in threes, then triple by triple 16, 3, 7 and the value's 1 to 11; then 14 and 12. What is cut short
/// inside a value tells how many bytes are missing, with the triple's place and type.
///
/// ```
/// let mut out = [0; 16];
/// let stream = tockplover::stream::write(&[], 0, &[3, 0, 1, 5, 1, 2], &[7, 8, 9], &mut out)?;
/// assert_eq!(stream, [3, 1, 7, 5, 2, 8, 9]);
/// # Ok::<(), tockplover::Refusal>(())
/// ```
pub fn write<'o>(table: &[u64], namespace: u64, triples: &[u64], source: &[u8], out: &'o mut [u8]) -> Result<&'o [u8], Refusal> {
    raw::written(raw::stream_write(table, namespace, triples, source, out), out)
}

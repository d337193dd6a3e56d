//! The mender: a stream that the old gateway wrote, whose records may be out of order, doubled and spelled long, is
//! written in rising order, each record once and in its shortest form. Values are not judged.

use crate::bigsize::{self, BigSize};
use crate::output::Output;
use crate::refusal::{ensure, NO_ROOM, STREAM_TOO_LONG, TWO_VALUES};
use crate::stream::LONGEST;
use crate::Refusal;

/// What was changed.
#[derive(Clone, Copy, Debug, Default, PartialEq, Eq)]
pub struct Changes {
    /// Kept records whose place among the kept ones differs between the old and the new order.
    pub moved: usize,
    /// Copies dropped.
    pub dropped: usize,
    /// Types and lengths respelled in the records kept.
    pub respelled: usize,
    /// Bytes cut off at the end.
    pub cut: usize,
}

/// A stream that was mended.
#[derive(Clone, Copy, Debug, PartialEq, Eq)]
pub struct Mended {
    /// How many bytes it takes.
    pub length: usize,
    /// What was changed.
    pub changes: Changes,
}

/// A record as it was read.
#[derive(Clone, Copy)]
struct Record<'a> {
    place: usize,
    kind: u64,
    value: &'a [u8],
    /// How many of its type and its length are not in their shortest form.
    long: usize,
}

impl<'a> Record<'a> {
    /// The whole record that begins at a place, and where it ends.
    #[inline(always)]
    fn read(stream: &'a [u8], place: usize) -> Option<(Self, usize)> {
        let kind = bigsize::peek(&stream[place..])?;
        let behind = place + kind.width;
        let length = bigsize::peek(&stream[behind..])?;
        let start = behind + length.width;
        if length.value > (stream.len() - start) as u64 {
            return None;
        }
        let end = start + length.value as usize;
        let long = usize::from(is_long(kind)) + usize::from(is_long(length));
        Some((Self { place, kind: kind.value, value: &stream[start..end], long }, end))
    }

    /// How many bytes it takes in its shortest form.
    fn shortest(&self) -> usize {
        let length = self.value.len();
        bigsize::width(self.kind) + bigsize::width(length as u64) + length
    }
}

/// Whether a number is not in its shortest form.
fn is_long(number: BigSize) -> bool {
    number.width > bigsize::width(number.value)
}

/// The whole records from the front, up to the first that is not whole, and where the last of them ends.
fn records_of(stream: &[u8]) -> (Vec<Record<'_>>, usize) {
    let mut records = Vec::new();
    let mut at = 0;
    while let Some((record, end)) = Record::read(stream, at) {
        records.push(record);
        at = end;
    }
    (records, at)
}

/// The first record in the stream that has another value than an earlier one of its type; records of one type stand
/// together here, in their old order.
fn first_other<'a>(records: &[Record<'a>]) -> Option<Record<'a>> {
    let of_each_type = records.chunk_by(|a, b| a.kind == b.kind);
    let others = of_each_type.filter_map(|same| same.iter().find(|record| record.value != same[0].value));
    others.min_by_key(|record| record.place).copied()
}

/// How many of the records, in their new order, had another number in the old one.
fn moved(records: &[Record]) -> usize {
    let mut places: Vec<usize> = records.iter().map(|record| record.place).collect();
    places.sort_unstable();
    records.iter().zip(&places).filter(|(record, place)| record.place != **place).count()
}

/// Puts the records into an output of exactly their length.
fn put(records: &[Record], out: &mut [u8]) {
    let mut output = Output::new(out);
    for record in records {
        output.bigsize(record.kind);
        output.bigsize(record.value.len() as u64);
        output.bytes(record.value);
    }
}

/// Writes the mended stream to the front of the output: 14, 80, 12.
pub fn mend(stream: &[u8], out: &mut [u8]) -> Result<Mended, Refusal> {
    ensure(stream.len() <= LONGEST, Refusal::bare(STREAM_TOO_LONG))?;
    let (mut records, end) = records_of(stream);
    let read = records.len();
    // Those of one type keep their order, so that the first of them stays.
    records.sort_by_key(|record| record.kind);
    if let Some(record) = first_other(&records) {
        return Err(Refusal::at(TWO_VALUES, record.place, record.kind));
    }
    records.dedup_by_key(|record| record.kind);
    let length = records.iter().map(Record::shortest).sum();
    put(&records, out.get_mut(..length).ok_or(Refusal::bare(NO_ROOM))?);
    let changes = Changes {
        moved: moved(&records),
        dropped: read - records.len(),
        respelled: records.iter().map(|record| record.long).sum(),
        cut: stream.len() - end,
    };
    Ok(Mended { length, changes })
}

#[cfg(test)]
mod tests {
    use super::*;
    use crate::gen::bigsize_form as spelled;
    use crate::stream;

    /// The bytes and the four counts of a stream that is mended; mended again it stays as it is.
    fn mended(stream: &[u8]) -> (Vec<u8>, [usize; 4]) {
        let (bytes, changes) = once(stream);
        assert_eq!(once(&bytes), (bytes.clone(), [0; 4]));
        (bytes, changes)
    }

    /// The same in an output that is as long as the stream, which is always enough.
    fn once(stream: &[u8]) -> (Vec<u8>, [usize; 4]) {
        let mut out = vec![0xa5; stream.len()];
        let Mended { length, changes } = mend(stream, &mut out).unwrap();
        assert!(out[length..].iter().all(|&byte| byte == 0xa5));
        out.truncate(length);
        let Changes { moved, dropped, respelled, cut } = changes;
        (out, [moved, dropped, respelled, cut])
    }

    /// The refusal of a stream, whatever the room is.
    fn refused(stream: &[u8]) -> (u8, usize, u64) {
        let mut out = vec![0xa5; stream.len()];
        let refusal = mend(stream, &mut out).unwrap_err();
        assert!(out.iter().all(|&byte| byte == 0xa5));
        assert_eq!(mend(stream, &mut []), Err(refusal));
        (refusal.number, refusal.place, refusal.kind)
    }

    #[test]
    fn a_right_stream_comes_out_the_same() {
        for stream in [&[][..], &[1, 0], &[0, 0, 2, 1, 9, 252, 0, 0xfd, 0, 0xfd, 2, 7, 7]] {
            assert_eq!(mended(stream), (stream.to_vec(), [0; 4]));
        }
    }

    #[test]
    fn rising_order() {
        assert_eq!(mended(&[3, 0, 2, 0, 1, 0]), (vec![1, 0, 2, 0, 3, 0], [2, 0, 0, 0]));
        assert_eq!(mended(&[1, 0, 3, 1, 9, 2, 0]), (vec![1, 0, 2, 0, 3, 1, 9], [2, 0, 0, 0]));
        assert_eq!(mended(&[4, 0, 1, 0, 2, 0, 3, 0]), (vec![1, 0, 2, 0, 3, 0, 4, 0], [4, 0, 0, 0]));
        // Numbers go by their values and not by their bytes.
        let stream = [0xfe, 0, 1, 0, 0, 0, 0xfd, 2, 0, 0, 9, 0];
        assert_eq!(mended(&stream), (vec![9, 0, 0xfd, 2, 0, 0, 0xfe, 0, 1, 0, 0, 0], [2, 0, 0, 0]));
    }

    #[test]
    fn copies_become_one() {
        assert_eq!(mended(&[1, 1, 9, 1, 1, 9, 1, 1, 9]), (vec![1, 1, 9], [0, 2, 0, 0]));
        // The first stays: only its spelling counts, and its place.
        assert_eq!(mended(&[5, 0, 0xfd, 0, 5, 0xfd, 0, 0]), (vec![5, 0], [0, 1, 0, 0]));
        assert_eq!(mended(&[0xfd, 0, 5, 0xfd, 0, 0, 5, 0]), (vec![5, 0], [0, 1, 2, 0]));
        assert_eq!(mended(&[1, 0, 2, 0, 1, 0, 3, 0, 2, 0]), (vec![1, 0, 2, 0, 3, 0], [0, 2, 0, 0]));
        assert_eq!(mended(&[2, 0, 2, 0, 1, 0, 2, 0]), (vec![1, 0, 2, 0], [2, 2, 0, 0]));
    }

    #[test]
    fn long_spellings_of_every_width() {
        for (kind, least) in
            [(0, 1), (252, 1), (253, 3), (65_535, 3), (65_536, 5), (u64::from(u32::MAX), 5), (1 << 32, 9)]
        {
            for width in [1, 3, 5, 9].into_iter().filter(|&width| width >= least) {
                for length_width in [1, 3, 5, 9] {
                    let stream = [spelled(kind, width), spelled(2, length_width), vec![8, 9]].concat();
                    let right = [spelled(kind, least), vec![2, 8, 9]].concat();
                    let long = usize::from(width > least) + usize::from(length_width > 1);
                    assert_eq!(mended(&stream), (right, [0, 0, long, 0]));
                }
            }
        }
        // Lengths that take three bytes in their shortest form.
        for (length, least) in [(252, 1), (253, 3), (300, 3)] {
            let value = vec![7; length];
            for width in [3, 5, 9] {
                let stream = [&[1], &spelled(length as u64, width)[..], &value].concat();
                let right = [&[1], &spelled(length as u64, least)[..], &value].concat();
                assert_eq!(mended(&stream), (right, [0, 0, usize::from(width > least), 0]));
            }
        }
    }

    #[test]
    fn a_cut_anywhere() {
        let records: [&[u8]; 4] =
            [&[0xfd, 0, 7, 0xfd, 0, 2, 8, 9], &[3, 1, 5], &[0xff, 1, 0, 0, 0, 0, 0, 0, 0, 0], &[3, 1, 5]];
        let stream = records.concat();
        let ends = [0, 8, 11, 21, 24];
        let kept: [&[u8]; 4] =
            [&[], &[7, 2, 8, 9], &[3, 1, 5, 7, 2, 8, 9], &[3, 1, 5, 7, 2, 8, 9, 0xff, 1, 0, 0, 0, 0, 0, 0, 0, 0]];
        let changes = [[0; 3], [0, 0, 2], [2, 0, 2], [2, 0, 2], [2, 1, 2]];
        for cut in 0..=stream.len() {
            let whole = ends.iter().rposition(|&end| end <= cut).unwrap();
            let [moved, dropped, respelled] = changes[whole];
            let expected = (kept[whole.min(3)].to_vec(), [moved, dropped, respelled, cut - ends[whole]]);
            assert_eq!(mended(&stream[..cut]), expected);
        }
    }

    #[test]
    fn a_length_near_the_greatest_number() {
        for length in [u64::MAX, u64::MAX - 1, u64::MAX - 9, u64::MAX - 11, 1 << 63, 1 << 32, 65_536, 3] {
            let stream = [&[1, 0, 5], &spelled(length, 9)[..], &[9, 9]].concat();
            assert_eq!(mended(&stream), (vec![1, 0], [0, 0, 0, 12]));
        }
    }

    #[test]
    fn two_values_of_one_type() {
        assert_eq!(refused(&[3, 0, 1, 1, 9, 1, 1, 8]), (80, 5, 1));
        // Another length is another value, and spellings do not matter.
        assert_eq!(refused(&[7, 0, 7, 1, 0]), (80, 2, 7));
        assert_eq!(refused(&[7, 1, 0, 0xfd, 0, 7, 0]), (80, 3, 7));
        // The first record that disagrees, not the lowest type, and not the record that it disagrees with.
        assert_eq!(refused(&[1, 0, 9, 0, 9, 1, 4, 1, 1, 4]), (80, 4, 9));
        assert_eq!(refused(&[9, 0, 1, 0, 1, 1, 4, 9, 1, 4]), (80, 4, 1));
        assert_eq!(refused(&[2, 1, 5, 2, 1, 5, 2, 1, 6, 2, 1, 7]), (80, 6, 2));
        // Behind a cut nothing is read.
        assert_eq!(mended(&[1, 1, 9, 1, 1]), (vec![1, 1, 9], [0, 0, 0, 2]));
        assert_eq!(mended(&[1, 1, 9, 4, 9, 1, 1, 8]), (vec![1, 1, 9], [0, 0, 0, 5]));
    }

    #[test]
    fn order_of_refusals() {
        let mut long = [1, 0].repeat(32_768);
        assert_eq!(refused(&long), (14, 0, 0));
        long[65_535] = 9;
        assert_eq!(refused(&long), (14, 0, 0));
        long.pop();
        assert_eq!(mended(&long), (vec![1, 0], [0, 32_766, 0, 1]));
        assert_eq!(mend(&[2, 0, 1, 1, 9, 2, 1, 5], &mut []), Err(Refusal::at(80, 5, 2)));
        let stream = [0xfd, 0, 2, 0, 1, 1, 9, 2, 0];
        for room in 0..5 {
            let mut out = vec![0xa5; room];
            assert_eq!(mend(&stream, &mut out), Err(Refusal::bare(12)));
            assert!(out.iter().all(|&byte| byte == 0xa5));
        }
        assert_eq!(mended(&stream), (vec![1, 1, 9, 2, 0], [2, 1, 1, 0]));
    }

    #[test]
    fn a_full_stream() {
        let value = vec![7; 65_531];
        let full = [&[9], &spelled(65_531, 3)[..], &value].concat();
        assert_eq!(mended(&full), (full.clone(), [0; 4]));
        // All types that fit, the highest first: the middle one of an odd count stays.
        let rising: Vec<Vec<u8>> =
            (0..16_510).map(|kind| [spelled(kind, bigsize::width(kind)), vec![0]].concat()).collect();
        let right = rising.concat();
        assert_eq!(right.len(), 65_534);
        assert_eq!(mended(&right), (right.clone(), [0; 4]));
        let falling: Vec<u8> = rising.iter().rev().flatten().copied().collect();
        assert_eq!(mended(&falling), (right.clone(), [16_510, 0, 0, 0]));
        let odd: Vec<u8> = rising[1..].iter().rev().flatten().copied().collect();
        assert_eq!(mended(&odd).1, [16_508, 0, 0, 0]);
    }

    #[test]
    fn what_comes_out_is_right_in_frame() {
        let (bytes, _) = mended(&[0xfd, 0, 9, 0, 7, 0xfe, 0, 0, 0, 1, 3, 3, 0, 9, 0, 0xff]);
        assert_eq!(stream::count(&[], 0, &bytes).map(|counts| counts.records), Ok(3));
    }
}

//! How much is missing (document 02 (v)): of numbers, streams, nested streams, messages and what is written.

use tockplover_reference::gen::{self, Random, Rules, METERS};
use tockplover_reference::{bigsize, message, message_writer, stream, stream_writer, table, Refusal};

/// A number in its shortest form.
fn number(value: u64) -> Vec<u8> {
    gen::bigsize_form(value, bigsize::width(value))
}

/// A record whose value is a stream of the meters' namespace 0.
fn nested(stream: &[u8]) -> Vec<u8> {
    [&[6], &number(stream.len() as u64)[..], stream].concat()
}

/// The refusal of a stream by the meters' table, the same for all who read it.
fn refused(bytes: &[u8]) -> Option<Refusal> {
    let refusal = stream::count(&METERS, 0, bytes).err();
    assert_eq!(stream::count_walking(&METERS, 0, bytes).err(), refusal);
    assert_eq!(stream::read(&METERS, 0, bytes, &mut vec![0; 2 * bytes.len()]).err(), refusal);
    if let Some(refusal) = refusal {
        assert_eq!(stream::contains(&METERS, 0, bytes, 1), Err(refusal));
        assert_eq!(stream::locate(&METERS, 0, bytes, 1), Err(refusal));
    }
    refusal
}

/// With exactly the missing bytes more what is at hand is no longer cut short, and with fewer it lacks that many less.
fn filled_up(refusal: Refusal, with: impl Fn(&[u8]) -> Option<Refusal>, more: &[u8]) {
    let whole = refusal.missing as usize;
    for count in 1..whole {
        let lacking = Refusal { missing: (whole - count) as u64, ..refusal };
        assert_eq!(with(&more[..count]), Some(lacking), "{count} bytes more");
    }
    if let Some(next) = with(&more[..whole]) {
        assert_ne!((next.number, next.place), (refusal.number, refusal.place));
    }
}

#[test]
fn numbers_cut_anywhere() {
    let mut random = Random::new(21);
    for (first, width) in [(253, 3), (254, 5), (255, 9)] {
        for there in 1..width {
            for _ in 0..200 {
                let bytes = [&[first], &random.bytes(there - 1)[..]].concat();
                let refusal = Refusal::lacking(1, 0, 0, (width - there) as u64);
                assert_eq!(bigsize::read(&bytes), Err(refusal));
                let with = |more: &[u8]| bigsize::read(&[&bytes, more].concat()).err();
                filled_up(refusal, with, &random.bytes(8));
            }
        }
    }
}

#[test]
fn one_byte_begins_a_number() {
    assert_eq!(bigsize::read(&[]), Err(Refusal::lacking(13, 0, 0, 1)));
    for first in 0..=255 {
        let begun = bigsize::read(&[first]).map_or_else(|refusal| (refusal.number, refusal.missing), |_| (0, 0));
        let expected = match first {
            0..=252 => (0, 0),
            253 => (1, 2),
            254 => (1, 4),
            255 => (1, 8),
        };
        assert_eq!(begun, expected);
    }
}

/// A record by its parts.
struct Record {
    kind: u64,
    length: Vec<u8>,
    value: Vec<u8>,
}

impl Record {
    fn new(kind: u64, value: &[u8]) -> Self {
        Self { kind, length: number(value.len() as u64), value: value.to_vec() }
    }

    fn bytes(&self) -> Vec<u8> {
        [&number(self.kind)[..], &self.length, &self.value].concat()
    }

    /// What so many bytes of it are refused with, where it begins at a place; nothing of it, and all of it, is no fault.
    fn cut(&self, place: usize, there: usize) -> Option<Refusal> {
        let in_type = bigsize::width(self.kind);
        let start = in_type + self.length.len();
        let end = start + self.value.len();
        let missing = |end: usize| (end - there) as u64;
        match there {
            0 => None,
            _ if there < in_type => Some(Refusal::lacking(1, place, 0, missing(in_type))),
            _ if there == in_type => Some(Refusal::lacking(4, place, self.kind, 1)),
            _ if there < start => Some(Refusal::lacking(4, place, self.kind, missing(start))),
            _ if there < end => Some(Refusal::lacking(6, place, self.kind, missing(end))),
            _ => None,
        }
    }
}

/// Records with types and lengths of one, three, five and nine bytes.
fn wide_records() -> [Record; 5] {
    [
        Record::new(1, &[42, 43]),
        Record::new(9, &[]),
        Record::new(0x1235, &[7; 300]),
        Record::new(0x12_3457, &[5; 2]),
        Record::new(u64::MAX, &[9; 253]),
    ]
}

/// Each prefix of these records as a stream, and what it is refused with.
fn cuts(records: &[Record]) -> Vec<(Vec<u8>, Option<Refusal>)> {
    let mut cuts = vec![(Vec::new(), None)];
    let mut before = Vec::new();
    for record in records {
        let bytes = record.bytes();
        for there in 1..=bytes.len() {
            cuts.push(([&before, &bytes[..there]].concat(), record.cut(before.len(), there)));
        }
        before.extend(bytes);
    }
    cuts
}

#[test]
fn a_stream_cut_anywhere() {
    let mut seen = [0; 9];
    for (bytes, refusal) in cuts(&wide_records()) {
        assert_eq!(refused(&bytes), refusal, "{bytes:x?}");
        seen[refusal.map_or(0, |refusal| refusal.number.into())] += 1;
    }
    // The five ends and nothing at all; types of three, five and nine bytes; lengths, not begun and of three bytes.
    assert_eq!(seen, [6, 2 + 4 + 8, 0, 0, 5 + 2 * 2, 0, 2 + 300 + 2 + 253, 0, 0]);
}

#[test]
fn a_cut_stream_filled_up_with_any_bytes() {
    let mut random = Random::new(22);
    for (bytes, refusal) in cuts(&wide_records()) {
        let Some(refusal) = refusal.filter(|refusal| refusal.missing > 1) else { continue };
        let with = |more: &[u8]| refused(&[&bytes, more].concat());
        filled_up(refusal, with, &random.bytes(400));
    }
}

#[test]
fn a_length_not_begun_is_begun_by_one_byte() {
    for first in 0..=255 {
        let refusal = refused(&[9, first]);
        let expected = match first {
            0 => None,
            1..=252 => Some(Refusal::lacking(6, 0, 9, first.into())),
            253 => Some(Refusal::lacking(4, 0, 9, 2)),
            254 => Some(Refusal::lacking(4, 0, 9, 4)),
            255 => Some(Refusal::lacking(4, 0, 9, 8)),
        };
        assert_eq!(refusal, expected);
    }
}

#[test]
fn every_announced_length_is_exact() {
    for announced in [1, 252, 253, 65_535, 65_536, u64::from(u32::MAX), 1 << 32, 1 << 63, u64::MAX - 1, u64::MAX] {
        for there in 0..20.min(announced) {
            let record = [&[9], &number(announced)[..], &vec![0; there as usize]].concat();
            let refusal = Refusal::lacking(6, 0, 9, announced - there);
            assert_eq!(refused(&record), Some(refusal));
            let behind = [&[1, 0], &record[..]].concat();
            assert_eq!(refused(&behind), Some(Refusal { place: 2, ..refusal }));
        }
    }
    // The most that can be missing of a full stream.
    let full = [&[9], &number(u64::MAX)[..], &[0; 65_525]].concat();
    assert_eq!(refused(&full), Some(Refusal::lacking(6, 0, 9, u64::MAX - 65_525)));
}

#[test]
fn a_nested_cut_is_counted_to_the_end_of_its_own_stream() {
    for (bytes, refusal) in cuts(&wide_records()) {
        let mut wrapped = bytes;
        let mut begin = 0;
        for _ in 1..stream::LEVELS {
            let length = wrapped.len();
            wrapped = nested(&wrapped);
            begin += wrapped.len() - length;
            let expected = refusal.map(|refusal| Refusal { place: refusal.place + begin, ..refusal });
            assert_eq!(refused(&wrapped), expected);
            // What stands behind in the outer stream fills nothing up.
            assert_eq!(refused(&[&wrapped[..], &[8, 3, 1, 1, 1]].concat()), expected);
        }
    }
}

#[test]
fn a_nested_cut_filled_up_inside_its_own_stream() {
    let mut random = Random::new(23);
    // All are over 252 bytes long, so that the outer record's head stays as wide, and the place the same.
    let (head, front) = (4, Record::new(0, &[6; 300]).bytes());
    for (bytes, refusal) in cuts(&wide_records()) {
        let Some(refusal) = refusal.filter(|refusal| refusal.missing > 1) else { continue };
        let inner = [&front[..], &bytes].concat();
        let with = |more: &[u8]| refused(&nested(&[&inner, more].concat()));
        let place = head + front.len() + refusal.place;
        filled_up(Refusal { place, ..refusal }, with, &random.bytes(400));
    }
}

#[test]
fn a_length_not_begun_at_the_end_of_a_nested_stream() {
    // Type 1 stands alone in the inner stream, and bytes follow in the outer one.
    assert_eq!(refused(&[6, 1, 1, 8, 0]), Some(Refusal::lacking(4, 2, 1, 1)));
    assert_eq!(refused(&[6, 3, 8, 0, 9, 11, 0]), Some(Refusal::lacking(4, 4, 9, 1)));
    assert_eq!(refused(&[6, 3, 6, 1, 1, 8, 0]), Some(Refusal::lacking(4, 4, 1, 1)));
    // The outer record's own cut comes first.
    assert_eq!(refused(&[6, 3, 1]), Some(Refusal::lacking(6, 0, 6, 2)));
}

#[test]
fn valid_streams_cut_anywhere() {
    let mut random = Random::new(24);
    for _ in 0..400 {
        let whole = gen::stream(&mut random, &METERS, 0, 200, Rules::Kept);
        let mut ends = 0;
        for cut in 0..=whole.len() {
            match refused(&whole[..cut]) {
                None => ends += 1,
                Some(refusal) => {
                    assert!(matches!(refusal.number, 1 | 4 | 6), "{refusal:?}");
                    assert!(refusal.missing > 0 && refusal.missing <= (whole.len() - cut) as u64);
                    assert!(refusal.place < cut);
                }
            }
        }
        assert_eq!(ends, 1 + stream::count(&METERS, 0, &whole).unwrap().records);
    }
}

#[test]
fn triples_with_a_nested_cut() {
    for (bytes, refusal) in cuts(&wide_records()) {
        let triples = [1, 0, 0, 6, 0, bytes.len() as u64];
        let written = stream_writer::write(&METERS, 0, &triples, &bytes, &mut [0; 1_000]);
        let expected = refusal.map(|refusal| Refusal { place: 1, kind: 6, ..refusal });
        assert_eq!(written.err(), expected);
        assert_eq!(stream_writer::measure(&METERS, 0, &triples, &bytes).err(), expected);
        // So does a cut in a stream inside.
        let deeper = nested(&bytes);
        let triples = [6, 0, deeper.len() as u64];
        let expected = refusal.map(|refusal| Refusal { place: 0, kind: 6, ..refusal });
        assert_eq!(stream_writer::measure(&METERS, 0, &triples, &deeper).err(), expected);
    }
}

#[test]
fn messages_cut_in_their_extension() {
    let address = [1, 127, 0, 0, 1, 0x26, 7];
    let records = [Record::new(1, &[7; 32]), Record::new(3, &address), Record::new(0x1235, &[5; 3])];
    for payload in [&[0, 16, 0, 1, 9, 0, 0][..], &[0, 18, 0, 4, 0, 1, 0], &[0, 19, 0, 0]] {
        for (extension, refusal) in cuts(&records) {
            let message = [payload, &extension].concat();
            let expected = refusal.map(|refusal| Refusal { place: refusal.place + payload.len(), ..refusal });
            assert_eq!(message::judge(&message).err(), expected);
            assert_eq!(message::read(&message, &mut [0; 12]).err(), expected);
            let asked = message::address(&message).err().filter(|refusal| refusal.number != 15);
            assert_eq!(asked, expected);
        }
    }
}

#[test]
fn nothing_is_missing_from_what_is_refused_otherwise() {
    let refusals = [
        // A payload that is cut short, and a message without a type.
        message::judge(&[0, 18, 0]).err(),
        message::judge(&[]).err(),
        // Frames that are whole.
        refused(&[0xfd, 0, 1, 0]),
        refused(&[3, 0, 1, 0]),
        refused(&[1, 0xfd, 0, 1, 9]),
        refused(&[18, 0]),
        refused(&[1, 1, 0]),
        stream::count(&METERS, 0, &[0; 65_536]).err(),
        stream::read(&METERS, 0, &[1, 0], &mut []).err(),
        stream::contains(&METERS, 0, &[], 1).err(),
        // A value that is shorter than its form asks is whole, and the writers' rows have no cut of their own.
        refused(&[2, 1, 7]),
        stream_writer::measure(&METERS, 0, &[8, 0, 2], &[0]).err(),
        message_writer::write(17, &[0; 31], &[], 0, &[], &[], &mut []).err(),
        table::check(&[1]).err(),
    ];
    let numbers = refusals.map(|refusal| refusal.map_or(0, |refusal| refusal.number));
    assert_eq!(numbers, [20, 20, 2, 3, 5, 7, 9, 14, 12, 15, 8, 16, 20, 60]);
    assert!(refusals.iter().flatten().all(|refusal| refusal.missing == 0));
}

//! How much is missing from what is cut short.
mod common;

use common::refused;
use tockplover::message::Payload;
use tockplover::{bigsize, book, mender, message, stream, Refusal};

/// Type 1 is an integer, type 6 a stream of the same namespace, type 8 any bytes.
const TABLE: [u64; 12] = [0, 1, 2, 8, 0, 6, 5, 0, 0, 8, 0, 0];

/// The number, the place, the type and how many bytes are missing of an answer that has to be refused.
fn lacking<T>(answer: Result<T, Refusal>) -> (u8, usize, u64, u64) {
    let refusal = answer.err().expect("the answer is a refusal");
    (refusal.number, refusal.place, refusal.kind, refusal.missing)
}

/// What every question on a stream is refused with.
fn of_stream(bytes: &[u8]) -> (u8, usize, u64, u64) {
    let told = lacking(stream::count(&TABLE, 0, bytes));
    assert_eq!(lacking(stream::read(&TABLE, 0, bytes, &mut [0; 64])), told);
    assert_eq!(lacking(stream::contains(&TABLE, 0, bytes, 1)), told);
    assert_eq!(lacking(stream::value(&TABLE, 0, bytes, 1)), told);
    told
}

/// The words of what is lacking.
fn words<T>(answer: Result<T, Refusal>) -> String {
    answer
        .err()
        .and_then(|refusal| refusal.lack())
        .map_or(String::new(), |lack| lack.to_string())
}

#[test]
fn numbers() {
    assert_eq!(lacking(bigsize::read(&[])), (13, 0, 0, 1));
    for (first, announced) in [(0xfd, 2), (0xfe, 4), (0xff, 8)] {
        for there in 0..announced {
            let bytes = [&[first], &vec![0; there][..]].concat();
            assert_eq!(lacking(bigsize::read(&bytes)), (1, 0, 0, (announced - there) as u64));
        }
    }
    assert_eq!(refused(bigsize::read(&[0xfd, 0, 1])), (2, 0, 0));
}

#[test]
fn a_stream_cut_at_every_byte() {
    let whole = [1, 1, 42, 0xfd, 1, 1, 0xfd, 0, 253];
    let wanted = [
        (4, 0, 1, 1),
        (6, 0, 1, 1),
        (0, 0, 0, 0),
        (1, 3, 0, 2),
        (1, 3, 0, 1),
        (4, 3, 257, 1),
        (4, 3, 257, 2),
        (4, 3, 257, 1),
        (6, 3, 257, 253),
    ];
    for (cut, wanted) in (1..).zip(wanted) {
        match wanted.0 {
            0 => assert_eq!(stream::count(&TABLE, 0, &whole[..cut]).map(|counts| counts.records), Ok(1)),
            _ => assert_eq!(of_stream(&whole[..cut]), wanted, "{cut}"),
        }
    }
}

#[test]
fn a_length_near_the_greatest_number() {
    let mut stream = vec![9];
    stream.extend([0xff; 9]);
    assert_eq!(of_stream(&stream), (6, 0, 9, u64::MAX));
    stream.extend([7; 3]);
    assert_eq!(of_stream(&stream), (6, 0, 9, u64::MAX - 3));
}

#[test]
fn a_nested_cut_is_counted_to_the_end_of_its_own_value() {
    assert_eq!(of_stream(&[6, 2, 8, 5, 8, 0]), (6, 2, 8, 5));
    assert_eq!(of_stream(&[6, 1, 8, 8, 0]), (4, 2, 8, 1));
    assert_eq!(of_stream(&[6, 2, 0xfe, 0, 8, 0]), (1, 2, 0, 3));
}

#[test]
fn the_writers_keep_what_is_missing() {
    let mut out = [7; 16];
    let written = stream::write(&TABLE, 0, &[1, 0, 0, 6, 0, 2], &[8, 5], &mut out);
    assert_eq!(lacking(written), (6, 1, 6, 5));
    // A value that is too short by its form is whole.
    assert_eq!(refused(stream::write(&[0, 1, 1, 8], 0, &[1, 0, 2], &[8, 5], &mut out)), (8, 0, 1));
    let init = Payload::Init {
        globalfeatures: &[],
        features: &[],
    };
    assert_eq!(refused(message::write(init, &[3, 0, 1], &[1], &mut out)), (8, 0, 3));
    assert_eq!(out, [7; 16]);
}

#[test]
fn a_message_cut_in_its_extension() {
    let init = [0, 16, 0, 0, 0, 0, 3, 7, 1, 127, 0, 0, 1, 0x26, 7];
    assert_eq!(lacking(message::read(&init[..7], &mut [0; 8])), (4, 6, 3, 1));
    for cut in 8..15 {
        let wanted = (6, 6, 3, (15 - cut) as u64);
        assert_eq!(lacking(message::read(&init[..cut], &mut [0; 8])), wanted);
        assert_eq!(lacking(message::address(&init[..cut])), wanted);
    }
    // A payload that is cut short does not tell.
    assert_eq!(refused(message::read(&init[..5], &mut [0; 8])), (20, 0, 16));
}

#[test]
fn the_mender_cuts_off_what_is_not_whole() {
    let mut out = [0; 8];
    assert_eq!(mender::mend(&[1, 0, 3, 9], &mut out).map(|mended| mended.changes.cut), Ok(2));
    assert_eq!(refused(mender::mend(&[1, 0, 1, 1, 7], &mut out)), (80, 2, 1));
}

#[test]
fn the_line_of_a_report() {
    let mut out = [0; 200];
    let report = book::report(&[0, 0, 0, 1, 0, 0, 2, 1, 5, 0, 0, 0, 0], &mut out).unwrap();
    let text = std::str::from_utf8(report).unwrap();
    assert_eq!(text.lines().nth(1), Some("stream 1 refused 6 at 0 type 1 missing 5"));
}

#[test]
fn what_is_lacking_in_words() {
    assert_eq!(words(stream::count(&[], 0, &[1, 5])), "the value lacks 5 bytes");
    assert_eq!(words(stream::count(&[], 0, &[1, 5, 0, 0, 0, 0])), "the value lacks 1 byte");
    assert_eq!(words(stream::count(&[], 0, &[1])), "the length lacks 1 byte");
    assert_eq!(words(stream::count(&[], 0, &[0xfd])), "the type or BigSize lacks 2 bytes");
    assert_eq!(words(bigsize::read(&[])), "the BigSize lacks 1 byte");
    assert_eq!(words(bigsize::read(&[0xfd, 0, 1])), "");
    assert_eq!(words(stream::count(&[], 0, &[0x12, 0])), "");
    let refusal = stream::count(&[], 0, &[1, 5]).unwrap_err();
    assert_eq!(refusal.to_string(), "refused 6 at 0 type 1 missing 5: the value is cut short");
}

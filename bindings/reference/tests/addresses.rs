//! Address descriptors: each line asked of the reader, the writers, streams of the first and the last level, an init and a
//! book.

use tockplover_reference::gen::BookCase;
use tockplover_reference::message::{self, BUILT_IN};
use tockplover_reference::stream::Counts;
use tockplover_reference::table::{self, Extension};
use tockplover_reference::{address, book, message_writer, stream, stream_writer, Part, Refusal};

/// Descriptors, and what a report says of them.
const ACCEPTED: [(&str, &str); 13] = [
    ("017f0000012607", "1 7f0000012607"),
    ("0220010db80000000000000000000000012607", "2 20010db80000000000000000000000012607"),
    ("03000102030405060708092607", "3 000102030405060708092607"),
    (
        "04000102030405060708090a0b0c0d0e0f101112131415161718191a1b1c1d1e1f2021222607",
        "4 000102030405060708090a0b0c0d0e0f101112131415161718191a1b1c1d1e1f2021222607",
    ),
    ("0501610050", "5 01610050"),
    ("050b6578616d706c652e636f6d2607", "5 0b6578616d706c652e636f6d2607"),
    ("050200000000", "5 0200000000"),
    ("00", "0"),
    ("000102", "0 0102"),
    ("06", "6"),
    ("067f0000012607", "6 7f0000012607"),
    ("ff", "255"),
    ("ffff", "255 ff"),
];

/// Values that are none, besides the descriptors of the five types with bytes cut off or one behind.
const REFUSED: [&str; 14] = [
    "",
    "01",
    "02",
    "03",
    "04",
    "05",
    "0500",
    "050000",
    "05000000",
    "0500610050",
    "0502610050",
    "050161620050",
    "05016100500050",
    "05ff610050",
];

/// A table with a type before the address, and one with streams around it.
const FLAT: [u64; 8] = [0, 1, table::ANY, 0, 0, 3, table::ADDRESS, 0];
const NESTED: [u64; 8] = [0, 3, table::ADDRESS, 0, 0, 6, table::STREAM, 0];

fn bytes(hex: &str) -> Vec<u8> {
    let digits: Vec<u32> = hex.chars().map(|c| c.to_digit(16).unwrap()).collect();
    digits.chunks(2).map(|pair| (pair[0] * 16 + pair[1]) as u8).collect()
}

/// A short record.
fn record(kind: u8, value: &[u8]) -> Vec<u8> {
    [&[kind, value.len() as u8], value].concat()
}

/// A stream whose address stands at level 4, and where that record begins.
fn at_level_4(value: &[u8]) -> (Vec<u8>, usize) {
    let stream = (0..3).fold(record(3, value), |inner, _| record(6, &inner));
    (stream, 6)
}

/// An init without features that has this extension.
fn init(extension: &[u8]) -> Vec<u8> {
    [&[0, 16, 0, 0, 0, 0], extension].concat()
}

/// The line of a book's only message.
fn report_line(message: Vec<u8>) -> String {
    let book = BookCase { messages: vec![message], ..BookCase::default() }.bytes();
    let mut out = vec![0; 200_000];
    let length = book::report(&book, &mut out).unwrap();
    // An output of just this length has room.
    assert_eq!(book::report(&book, &mut vec![0; length]), Ok(length));
    assert_eq!(book::report(&book, &mut vec![0; length - 1]), Err(Refusal::bare(12)));
    let text = String::from_utf8(out[..length].to_vec()).unwrap();
    text.lines().nth(1).unwrap().to_string()
}

fn accepted(value: &[u8], words: &str) {
    let rest = Part { start: 1, length: value.len() - 1 };
    assert_eq!(address::read(value), Ok(address::Descriptor { kind: value[0], rest }));
    assert!(address::is_descriptor(value));
    let mut out = vec![0xa5; value.len() + 1];
    assert_eq!(address::write(value[0], &value[1..], &mut out), Ok(value.len()));
    assert_eq!(out, [value, &[0xa5]].concat());
    out.fill(0xa5);
    assert_eq!(address::write(value[0], &value[1..], &mut out[..value.len() - 1]), Err(Refusal::bare(12)));
    assert!(out.iter().all(|&byte| byte == 0xa5));

    let stream = [&[1, 0][..], &record(3, value)].concat();
    assert_eq!(stream::count(&FLAT, 0, &stream), Ok(Counts { records: 2, known: 2 }));
    assert_eq!(stream::value(&FLAT, 0, &stream, 3), value);
    let mut out = vec![0; stream.len()];
    let triples = [1, 0, 0, 3, 0, value.len() as u64];
    assert_eq!(stream_writer::write(&FLAT, 0, &triples, value, &mut out), Ok(stream.len()));
    assert_eq!(out, stream);
    assert_eq!(stream::count(&NESTED, 0, &at_level_4(value).0), Ok(Counts { records: 1, known: 1 }));

    let message = init(&[&record(1, &[7; 32])[..], &record(3, value)].concat());
    assert_eq!(message::address(&message), Ok(Part { start: 42, length: value.len() }));
    let triples = [3, 0, value.len() as u64];
    let mut out = vec![0; 8 + value.len()];
    assert_eq!(message_writer::write(16, &[], &[], 0, &triples, value, &mut out), Ok(out.len()));
    assert_eq!(out, init(&record(3, value)));
    assert_eq!(report_line(message), format!("message 1 ok type 16 extension 2 address {words}"));
    assert_eq!(report_line(out), format!("message 1 ok type 16 extension 1 address {words}"));
}

fn refused(value: &[u8]) {
    assert!(!address::is_descriptor(value));
    assert_eq!(address::read(value), Err(Refusal::bare(8)));
    if let Some((&kind, rest)) = value.split_first() {
        let mut out = vec![0xa5; value.len()];
        assert_eq!(address::write(kind, rest, &mut out), Err(Refusal::bare(8)));
        assert_eq!(address::write(kind, rest, &mut []), Err(Refusal::bare(8)));
        assert!(out.iter().all(|&byte| byte == 0xa5));
    }
    // A fault behind the address comes later.
    let stream = [&[1, 0][..], &record(3, value), &[0]].concat();
    assert_eq!(stream::count(&FLAT, 0, &stream), Err(Refusal::at(8, 2, 3)));
    let triples = [1, 0, 0, 3, 0, value.len() as u64];
    assert_eq!(stream_writer::measure(&FLAT, 0, &triples, value), Err(Refusal::at(8, 1, 3)));
    let (stream, place) = at_level_4(value);
    assert_eq!(stream::count(&NESTED, 0, &stream), Err(Refusal::at(8, place, 3)));
    let message = init(&record(3, value));
    assert_eq!(message::judge(&message), Err(Refusal::at(8, 6, 3)));
    assert_eq!(message::address(&message), Err(Refusal::at(8, 6, 3)));
    let triples = [3, 0, value.len() as u64];
    assert_eq!(message_writer::write(16, &[], &[], 0, &triples, value, &mut []), Err(Refusal::at(8, 0, 3)));
    assert_eq!(report_line(message), "message 1 refused 8 at 6 type 3");
}

#[test]
fn descriptors() {
    for (hex, words) in ACCEPTED {
        accepted(&bytes(hex), words);
    }
}

#[test]
fn no_descriptors() {
    for hex in REFUSED {
        refused(&bytes(hex));
    }
    let known = ACCEPTED.iter().map(|(hex, _)| bytes(hex)).filter(|value| (1..=5).contains(&value[0]));
    for value in known {
        for cut in 1..value.len() {
            refused(&value[..cut]);
        }
        refused(&[&value[..], &[0]].concat());
    }
}

#[test]
fn names_of_every_length() {
    for name in 1..=255 {
        let rest = [&[name][..], &vec![b'a'; usize::from(name) + 2]].concat();
        let value = [&[5], &rest[..]].concat();
        assert!(address::is_descriptor(&value));
        assert!(!address::is_descriptor(&value[..value.len() - 1]));
        assert!(!address::is_descriptor(&[&value[..], &[0]].concat()));
    }
}

#[test]
fn a_row_with_another_parameter() {
    for (form, parameter) in [(6, 1), (6, 2), (6, u64::MAX), (7, 0), (8, 0)] {
        assert_eq!(table::check(&[0, 3, form, parameter]), Err(Refusal::bare(63)));
        assert_eq!(stream::count(&[0, 3, form, parameter], 0, &[]), Err(Refusal::bare(63)));
    }
    // Init's row of document 01 is no row of document 02's table.
    assert_eq!(table::extends(&[0, 1, 3, 32, 0, 3, 0, 0], &BUILT_IN), Extension::Lacks(1));
    assert_eq!(table::extends(&[0, 1, 3, 32], &BUILT_IN), Extension::Extends);
}

#[test]
fn a_level_too_deep() {
    let (stream, _) = at_level_4(&[6]);
    let deeper = record(6, &stream);
    assert_eq!(stream::count(&NESTED, 0, &deeper), Err(Refusal::at(11, 6, 6)));
}

#[test]
fn messages_without_an_address() {
    let absent = Err(Refusal::at(15, 0, 3));
    let with_networks = init(&record(1, &[7; 32]));
    let behind = init(&record(5, &[1]));
    // Other messages do not know the type, and it is not judged.
    let pong = [&[0, 19, 0, 0], &record(3, &[1])[..]].concat();
    let passed_over = [&[0, 21, 0, 0, 0, 0], &record(3, &[6])[..]].concat();
    for message in [&init(&[])[..], &with_networks, &behind, &pong, &passed_over] {
        assert_eq!(message::address(message), absent);
    }
    assert_eq!(report_line(pong), "message 1 ok type 19 extension 1");
    assert_eq!(report_line(passed_over), "message 1 passed over type 21");
    // The message's own refusal comes first.
    for message in [&[][..], &[0, 16], &[0, 22], &init(&[3, 1, 6, 2, 0]), &init(&[3, 2, 6])] {
        assert_eq!(message::address(message), Err(message::judge(message).unwrap_err()));
    }
}

#[test]
fn an_address_that_fills_the_message() {
    for (count, answer) in [(65_524, Ok(Part { start: 10, length: 65_525 })), (65_525, Err(Refusal::bare(21)))] {
        let length = (count + 1_u16).to_be_bytes();
        let message = [&init(&[3, 253]), &length[..], &[6], &vec![7; count.into()]].concat();
        assert_eq!(message::address(&message), answer);
    }
    // A book has eight bytes of its own, and two for the message's length.
    let length = 65_515_u16.to_be_bytes();
    let message = [&init(&[3, 253]), &length[..], &[6], &[0xc5; 65_514]].concat();
    assert_eq!(message.len(), 65_525);
    let words = format!("message 1 ok type 16 extension 1 address 6 {}", "c5".repeat(65_514));
    assert!(report_line(message) == words);
}

//! Refusals: what is told, and that no output is changed by one.
mod common;

use common::refused;
use tockplover::message::{Message, Payload};
use tockplover::money::Msat;
use tockplover::table::Extension;
use tockplover::{bigsize, book, invoice, message, numbers, stream, table};

const TEXT: &[u8] = b"lnbc20m1pvjluezpp5qqqsyqcyq5rqwzqfqqqsyqcyq5rqwzqfqqqsyqcyq5rqwzqfqypqhp58yjmdan79s6qqdhdzgynm4zwqd5d7xmw5fk98klysy043l2ahrqsfpp\
3qjmp7lwpagxun9pygexvgpjdc4jdj85fr9yq20q82gphp2nflc7jtzrcazrra7wwgzxqc8u7754cdlpfrmccae92qgzqvzq2ps8pqqqqqqqqqqqq9qqqvpeuqafqxu92d8lr6fvg0r5gv0\
heeeqgcrqlnm6jhphu9y00rrhy4grqszsvpcgpy9qqqqqqqqqqqq7qqzqfnlkwydm8rg30gjku7wmxmk06sevjp53fmvrcfegvwy7d5443jvyhxsel0hulkstws7vqv400q4j3wgpk4crg4\
9682hr4scqvmad43cqd5m7tf";

#[test]
fn a_refusal_is_an_error() {
    let error: Box<dyn std::error::Error> = Box::new(bigsize::read(&[0xfd, 0, 1]).unwrap_err());
    assert_eq!(
        error.to_string(),
        "refused 2 at 0: a record's type, or a BigSize asked alone, is not in its shortest form"
    );
}

#[test]
fn tables() {
    assert_eq!(refused(table::check(&[0, 2, 0, 0, 0, 1, 0, 0])), (62, 0, 0));
    let [older, newer] = [table::extends(&[1], &[]), table::extends(&[], &[64, 1, 0, 0])];
    assert!(matches!(older, Extension::OlderRefused(refusal) if refused::<()>(Err(refusal)) == (60, 0, 0)));
    assert!(matches!(newer, Extension::NewerRefused(refusal) if refused::<()>(Err(refusal)) == (61, 0, 0)));
}

#[test]
fn streams() {
    let stream = [0x1f, 0, 0x0f, 1, 0x2a];
    let mut index = [7; 8];
    assert_eq!(refused(stream::count(&[], 0, &stream)), (3, 2, 15));
    assert_eq!(refused(stream::read(&[], 0, &stream, &mut index)), (3, 2, 15));
    assert_eq!(refused(stream::read(&[], 0, &[1, 0, 3, 0, 5, 0], &mut index)), (12, 0, 0));
    assert_eq!(refused(stream::contains(&[], 0, &stream, 31)), (3, 2, 15));
    assert_eq!(refused(stream::value(&[], 64, &[], 31)), (61, 0, 0));
    let mut out = [7; 4];
    assert_eq!(refused(stream::write(&[], 0, &[1, 0, 3], &[0; 4], &mut out)), (12, 0, 0));
    assert_eq!(refused(stream::write(&[], 0, &[1, 0, 1, 2, 0, 0], &[0; 4], &mut out)), (7, 1, 2));
    assert_eq!((index, out), ([7; 8], [7; 4]));
}

#[test]
fn nothing_behind_a_filled_front_is_changed() {
    let (mut index, mut out) = ([7; 8], [7; 8]);
    stream::read(&[], 0, &[1, 1, 9], &mut index).unwrap();
    stream::write(&[], 0, &[1, 0, 1], &[9], &mut out).unwrap();
    assert_eq!(index, [1, 2, 1, 0, 7, 7, 7, 7]);
    assert_eq!(out, [1, 1, 9, 7, 7, 7, 7, 7]);
}

#[test]
fn messages() {
    let mut index = [7; 8];
    assert_eq!(refused(message::read(&[0, 20], &mut index)), (22, 0, 20));
    assert_eq!(refused(message::read(&[0, 18, 0], &mut index)), (20, 0, 18));
    assert_eq!(message::read(&[0x80, 1], &mut index), Ok(Message::PassedOver(32_769)));
    assert_eq!(index, [7; 8]);
    let mut out = [7; 8];
    let channel = &[0; 31];
    let short = Payload::Error { channel, content: &[] };
    assert_eq!(refused(message::write(short, &[], &[], &mut out)), (20, 0, 17));
    assert_eq!(refused(message::pong(5, &mut out)), (12, 0, 0));
    assert_eq!(refused(message::join_features(&[1; 9], &[], &mut out)), (12, 0, 0));
    assert_eq!(out, [7; 8]);
}

#[test]
fn every_payload_is_written_as_it_was_read() {
    let payloads = [
        Payload::Init {
            globalfeatures: &[1],
            features: &[2, 3],
        },
        Payload::Error {
            channel: &[4; 32],
            content: b"bad",
        },
        Payload::Warning {
            channel: &[5; 32],
            content: b"",
        },
        Payload::Ping {
            wanted: 65_535,
            filler: &[0; 3],
        },
        Payload::Pong { filler: &[0; 4] },
    ];
    for written in payloads {
        let (mut out, mut index) = ([0; 64], [0; 8]);
        let bytes = message::write(written, &[3, 0, 2], &[8, 9], &mut out).unwrap();
        let Message::Accepted { payload, extension, .. } = message::read(bytes, &mut index).unwrap() else {
            panic!()
        };
        assert_eq!(payload, written);
        let records: Vec<_> = extension
            .records()
            .map(|record| (record.kind, record.value, record.known))
            .collect();
        assert_eq!(records, [(3, &[8, 9][..], matches!(written, Payload::Init { .. }))]);
    }
}

#[test]
fn invoices() {
    let (mut groups, mut index, mut out) = ([7; 500], [7; 20], [7; 20]);
    assert_eq!(refused(invoice::read(&TEXT[..437], &mut groups, &mut index)), (35, 0, 0));
    assert_eq!(refused(invoice::read(TEXT, &mut groups, &mut index[..11])), (12, 0, 0));
    assert_eq!(refused(invoice::read(b"lnbc1\x07", &mut groups, &mut index)), (31, 5, 0));
    assert_eq!((groups, index), ([7; 500], [7; 20]));
    let written = invoice::write(invoice::Prefix::Lntb, b"01", 0, &[], &[0; 104], &mut out);
    assert_eq!(refused(written), (37, 0, 0));
    assert_eq!(refused(invoice::field_from_bytes(32, &[], &mut out)), (34, 0, 0));
    assert_eq!(refused(invoice::field_from_number(6, u64::MAX, &mut out)), (38, 0, 0));
    let field = invoice::Field::new(3, 1, 2);
    assert_eq!(refused(invoice::field_bytes(&[0, 0], field, &mut out)), (16, 0, 0));
    assert_eq!(refused(invoice::field_number(&[0, 0, 32], field)), (34, 2, 0));
    assert_eq!(refused(invoice::route_size(&[0, 0], field)), (16, 0, 0));
    assert_eq!(refused(invoice::route_entry(&[0, 0], field, 0)), (16, 0, 0));
    assert_eq!(out, [7; 20]);
}

#[test]
fn tenths_of_a_millisatoshi() {
    let (mut groups, mut index) = ([7; 500], [7; 20]);
    let whole: &[u8] = b"lnbc10p1pvjluezpp5qqqsyqcyq5rqwzqfqqqsyqcyq5rqwzqfqqqsyqcyq5rqwzqfqypqdq5xysxxatsyp3k7enxv4jsaztrnwn\
    gzn3kdzw5hydlzf03qdgm2hdq27cqv3agm2awhz5se903vruatfhq77w3ls4evs3ch9zw97j25emudupq63nyw24cg27h2rspe6ghp6";
    assert_eq!(invoice::read(whole, &mut groups, &mut index).unwrap().msat, Some(Msat(1)));
    let tenths: &[u8] = b"lnbc15p1pvjluezpp5qqqsyqcyq5rqwzqfqqqsyqcyq5rqwzqfqqqsyqcyq5rqwzqfqypqdq5xysxxatsyp3k7enxv4jsaztrnwn\
    gzn3kdzw5hydlzf03qdgm2hdq27cqv3agm2awhz5se903vruatfhq77w3ls4evs3ch9zw97j25emudupq63nyw24cg27h2rspjr6zux";
    assert_eq!(refused(invoice::read(tenths, &mut groups, &mut index)), (37, 0, 0));
    for amount in [&b"15P"[..], b"15p", b"5p", b"9999999999999999999p"] {
        let mut out = [7; 500];
        let written = invoice::write(invoice::Prefix::Lnbc, amount, 0, &[], &[0; 104], &mut out);
        assert_eq!(refused(written), (37, 0, 0));
        assert_eq!(out, [7; 500]);
    }
}

#[test]
fn the_route_of_an_invoice() {
    let (mut groups, mut index) = ([0; 500], [0; 20]);
    let read = invoice::read(TEXT, &mut groups, &mut index).unwrap();
    let route = read.fields().find(|field| field.is(invoice::field_type::ROUTE)).unwrap();
    assert_eq!(invoice::route_size(read.groups(), route), Ok(2));
    let entry = invoice::route_entry(read.groups(), route, 1).unwrap().unwrap();
    assert_eq!(
        (entry.key[0], entry.channel, entry.fee, entry.delta),
        (3, 0x0304_0506_0708_090a, 30, 4)
    );
    assert_eq!(invoice::route_entry(read.groups(), route, 2), Ok(None));
    let description = invoice::Field::new(13, route.start, route.size);
    assert_eq!(invoice::route_size(read.groups(), description), Ok(0));
    assert_eq!(invoice::route_entry(read.groups(), description, 0), Ok(None));
}

#[test]
fn books() {
    let mut out = [7; 15];
    assert_eq!(refused(book::report(&[], &mut out)), (12, 0, 0));
    assert_eq!(out, [7; 15]);
    assert_eq!(book::report(&[], &mut [0; 16]).unwrap(), b"book refused 70\n");
}

#[test]
fn the_named_numbers() {
    assert_eq!(
        (numbers::TYPE_CUT, numbers::NO_ROOM, numbers::CHECKSUM, numbers::BOOK_TOO_LONG),
        (1, 12, 35, 72)
    );
    assert_eq!(
        (numbers::TOO_MANY_PAIRS, numbers::TOO_MANY_BOOKS, numbers::TWO_VALUES),
        (73, 76, 80)
    );
}

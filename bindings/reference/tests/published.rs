//! The published vectors of BOLT 1 and BOLT 11, and document 01's sixteen lines.

use std::fmt::Write;

use tockplover_reference::gen::{triples_of, BOLT_1};
use tockplover_reference::invoice::{self, Invoice};
use tockplover_reference::message::{self, Message};
use tockplover_reference::{bigsize, invoice_writer, message_writer, money, stream, stream_writer, Part, Refusal};

/// Bytes from hex; `-` for none.
fn bytes(hex: &str) -> Vec<u8> {
    let digits: Vec<u32> = hex.trim_matches('-').chars().map(|c| c.to_digit(16).unwrap()).collect();
    digits.chunks(2).map(|pair| (pair[0] * 16 + pair[1]) as u8).collect()
}

fn hex(bytes: &[u8]) -> String {
    bytes.iter().map(|byte| format!("{byte:02x}")).collect()
}

fn number(bytes: &[u8]) -> u64 {
    bytes.iter().fold(0, |number, &byte| number << 8 | u64::from(byte))
}

fn refused(refusal: Refusal) -> String {
    let Refusal { number, place, kind, missing } = refusal;
    let tail = if missing > 0 { format!(" missing {missing}") } else { String::new() };
    format!("refused {number} at {place} type {kind}{tail}")
}

fn part(name: &str, part: Part) -> String {
    format!("{name} {}+{}", part.start, part.length)
}

/// The values of n1's types in BOLT 1's words.
fn n1_values(namespace: u64, bytes: &[u8]) -> String {
    let value = |kind| stream::value(&BOLT_1, namespace, bytes, kind);
    let has = |kind| namespace == 1 && stream::contains(&BOLT_1, namespace, bytes, kind).is_ok();
    let mut words = String::new();
    if has(1) {
        write!(words, " tlv1 amount_msat={}", number(value(1))).unwrap();
    }
    if has(2) {
        let scid = value(2);
        let (block, place, output) = (number(&scid[..3]), number(&scid[3..6]), number(&scid[6..]));
        write!(words, " tlv2 scid={block}x{place}x{output}").unwrap();
    }
    if has(3) {
        let (key, amounts) = value(3).split_at(33);
        let (first, second) = (number(&amounts[..8]), number(&amounts[8..]));
        write!(words, " tlv3 node_id={} amount_msat_1={first} amount_msat_2={second}", hex(key)).unwrap();
    }
    if has(254) {
        write!(words, " tlv4 cltv_delta={}", number(value(254))).unwrap();
    }
    words
}

fn answer_bigsize(input: &str) -> String {
    match bigsize::read(&bytes(input)) {
        Ok(read) => read.value.to_string(),
        Err(refusal) if refusal.missing > 0 => format!("refused {} missing {}", refusal.number, refusal.missing),
        Err(refusal) => format!("refused {}", refusal.number),
    }
}

fn answer_bigsize_write(input: &str) -> String {
    let mut out = [0; 9];
    let width = bigsize::write(input.parse().unwrap(), &mut out).unwrap();
    hex(&out[..width])
}

fn answer_stream(namespace: u64, input: &str) -> String {
    let bytes = bytes(input);
    match stream::count(&BOLT_1, namespace, &bytes) {
        Ok(counts) => {
            let triples = triples_of(&BOLT_1, namespace, &bytes);
            let mut back = vec![0; bytes.len()];
            assert_eq!(stream_writer::write(&BOLT_1, namespace, &triples, &bytes, &mut back), Ok(bytes.len()));
            assert_eq!(back, bytes);
            format!("records {} known {}{}", counts.records, counts.known, n1_values(namespace, &bytes))
        }
        Err(refusal) => refused(refusal),
    }
}

/// Writes a message back from what was read of it.
fn written_back(bytes: &[u8], answer: &Message, index: &[u64]) {
    let at = |part: Part| &bytes[part.start..part.end()];
    let (first, last, wanted, extension) = match *answer {
        Message::Init { globalfeatures, features, extension } => (at(globalfeatures), at(features), 0, extension),
        Message::Error { channel, data, extension } | Message::Warning { channel, data, extension } => {
            (at(channel), at(data), 0, extension)
        }
        Message::Ping { wanted, filler, extension } => (&[][..], at(filler), wanted, extension),
        Message::Pong { filler, extension } => (&[][..], at(filler), 0, extension),
        Message::PassedOver { .. } => return,
    };
    let triples: Vec<u64> = index.chunks(4).take(extension.counts.records).flat_map(|row| &row[..3]).copied().collect();
    let mut back = vec![0; bytes.len()];
    let kind = answer.kind().into();
    let length = message_writer::write(kind, first, last, wanted, &triples, bytes, &mut back);
    assert_eq!(length, Ok(bytes.len()));
    assert_eq!(back, bytes);
}

fn answer_message(input: &str) -> String {
    let bytes = bytes(input);
    let mut index = [0; 64];
    let answer = match message::read(&bytes, &mut index) {
        Ok(answer) => answer,
        Err(refusal) => return refused(refusal),
    };
    written_back(&bytes, &answer, &index);
    let words = match answer {
        Message::Init { globalfeatures, features, .. } => {
            format!("init {} {}", part("globalfeatures", globalfeatures), part("features", features))
        }
        Message::Error { channel, data, .. } => format!("error {} {}", part("channel", channel), part("data", data)),
        Message::Warning { channel, data, .. } => {
            format!("warning {} {}", part("channel", channel), part("data", data))
        }
        Message::Ping { wanted, filler, .. } => format!("ping wanted {wanted} {}", part("filler", filler)),
        Message::Pong { filler, .. } => format!("pong {}", part("filler", filler)),
        Message::PassedOver { kind } => return format!("passed over type {kind}"),
    };
    let extension = answer.extension().unwrap();
    let (records, known) = (extension.counts.records, extension.counts.known);
    format!("{words} {} records {records} known {known}", part("extension", extension.part))
}

/// A field in words: hashes and keys in hex, texts, numbers, routes and fallback addresses.
fn field_words(groups: &[u8], row: &[u64]) -> String {
    let (start, size) = (row[1], row[2]);
    let mut out = vec![0; size as usize];
    let count = invoice::field_bytes(groups, start, size, &mut out).unwrap();
    match row[0] {
        1 => format!("p {}", hex(&out[..count])),
        23 => format!("h {}", hex(&out[..count])),
        13 => format!("d {}", std::str::from_utf8(&out[..count]).unwrap()),
        6 => format!("x {}", invoice::field_number(groups, start, size).unwrap()),
        9 => {
            let version = groups[start as usize];
            let count = invoice::field_bytes(groups, start + 1, size - 1, &mut out).unwrap();
            format!("f {size} groups version {version} program {}", hex(&out[..count]))
        }
        3 => {
            let mut words = "r".to_string();
            for k in 0..invoice::route_size(groups, 3, start, size).unwrap() as u64 {
                let mut key = [0; 33];
                let hop = invoice::route_entry(groups, 3, start, size, k, &mut key).unwrap().unwrap();
                let (channel, fee, delta) = (hop.channel, hop.fee, hop.delta);
                write!(words, " key {} channel {channel:016x} fee {fee} delta {delta}", hex(&key)).unwrap();
            }
            words
        }
        kind => panic!("no example has a field of type {kind}"),
    }
}

fn answer_invoice(text: &str) -> String {
    let (mut groups, mut index) = ([0; 4_096], [0; 64]);
    let read = invoice::read(text.as_bytes(), &mut groups, &mut index).unwrap();
    let upper = text.to_uppercase();
    assert_eq!(invoice::judge(upper.as_bytes()), Ok(read));
    let mut changed = text.as_bytes().to_vec();
    let last = changed.last_mut().unwrap();
    *last = if *last == b'q' { b'p' } else { b'q' };
    assert_eq!(invoice::judge(&changed), Err(Refusal::bare(35)));
    let Invoice { prefix, amount, msat, time, groups: count, fields, payment, expiry, delta } = read;

    let (front, signature) = groups[..count].split_at(count - 104);
    let mut back = vec![0; text.len()];
    let letters = &text.as_bytes()[amount.start..amount.end()];
    let length = invoice_writer::write(prefix.into(), letters, time, &front[7..], signature, &mut back);
    assert_eq!(length, Ok(text.len()));
    assert_eq!(back, text.as_bytes());

    let msat = msat.map_or("none".to_string(), |msat| msat.0.to_string());
    let mut words = format!(
        "prefix {prefix} {} msat {msat} time {time} groups {count} fields {fields} payment {payment} \
         expiry {expiry} delta {delta}",
        part("amount", amount)
    );
    for row in index.chunks(3).take(fields) {
        write!(words, ", {}", field_words(&groups[..count], row)).unwrap();
    }
    words
}

#[test]
fn published_vectors() {
    let text = include_str!("published.txt");
    let mut compared = 0;
    for line in text.lines().filter(|line| !line.is_empty() && !line.starts_with('#')) {
        let mut columns = line.split(" | ");
        let (question, expected) = (columns.next().unwrap(), columns.next().unwrap());
        let answer = match question.split(' ').collect::<Vec<_>>()[..] {
            ["bigsize", input] => answer_bigsize(input),
            ["bigsize-write", input] => answer_bigsize_write(input),
            ["stream", namespace, input] => answer_stream(namespace.parse().unwrap(), input),
            ["message", input] => answer_message(input),
            ["invoice", input] => answer_invoice(input),
            _ => panic!("no such question: {line}"),
        };
        assert_eq!(answer, expected, "{line}");
        compared += 1;
    }
    assert_eq!(compared, 130);
}

/// BOLT 1's rules of appending, over all pairs of its streams.
#[test]
fn appended_streams() {
    let streams = |namespace: u64| {
        let start = format!("stream {namespace} ");
        let lines = include_str!("published.txt").lines();
        let inputs = lines.filter_map(move |line| line.strip_prefix(&start)?.split_once(" | "));
        inputs.map(|(input, _)| bytes(input)).collect::<Vec<_>>()
    };
    for namespace in [1, 2] {
        let (valid, invalid): (Vec<_>, Vec<_>) =
            streams(namespace).into_iter().partition(|stream| stream::count(&BOLT_1, namespace, stream).is_ok());
        for first in &valid {
            for second in &invalid {
                assert!(stream::count(&BOLT_1, namespace, &[&first[..], second].concat()).is_err());
            }
            for second in &valid {
                let kind = |bytes: &[u8]| bigsize::read(bytes).map(|read| read.value).ok();
                let higher = first.is_empty() || second.is_empty() || kind(first) < kind(second);
                let answer = stream::count(&BOLT_1, namespace, &[&first[..], second].concat());
                assert_eq!(answer.is_ok(), higher);
            }
        }
    }
}

#[test]
fn sixteen_lines() {
    let numbers = [("fc", "252"), ("fd00fd", "253"), ("fdffff", "65535"), ("fe00010000", "65536")];
    for (input, answer) in numbers.into_iter().chain([("fd00fc", "refused 2"), ("fd", "refused 1 missing 2")]) {
        assert_eq!(answer_bigsize(input), answer);
    }
    let streams = [
        ("", "records 0 known 0"),
        ("0100", "records 1 known 1 tlv1 amount_msat=0"),
        ("010100", "refused 9 at 0 type 1"),
        ("1200", "refused 7 at 0 type 18"),
        ("0ffd26", "refused 4 at 0 type 15 missing 1"),
        ("fd0101", "refused 4 at 0 type 257 missing 1"),
        ("1f000f012a", "refused 3 at 2 type 15"),
        ("0000", "refused 7 at 0 type 0"),
    ];
    for (input, answer) in streams {
        assert_eq!(answer_stream(1, input), answer);
    }
    assert_eq!(money::read_amount(b"2500u"), Ok(money::Msat(250_000_000)));
    assert_eq!(money::read_amount(b"20m"), Ok(money::Msat(2_000_000_000)));
}

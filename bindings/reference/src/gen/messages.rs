//! Messages and the questions about them.

use super::streams::{damaged_triples, record, shortest, stream, triples_of};
use super::{damaged, Random, Rules};
use crate::message::{BUILT_IN, ERROR, INIT, LONGEST, NETWORKS, PING, PONG, REMOTE_ADDR, WARNING};

/// A message's own bytes: a part with its two-byte length.
pub(super) fn counted(bytes: &[u8]) -> Vec<u8> {
    [&(bytes.len() as u16).to_be_bytes(), bytes].concat()
}

/// A message of the five types, at times with a fault in its extension unless the rules are kept.
pub fn message(random: &mut Random, rules: Rules) -> Vec<u8> {
    let kind = random.one_of(&[INIT, INIT, ERROR, WARNING, PING, PONG]);
    let mut message = kind.to_be_bytes().to_vec();
    match kind {
        INIT => message.extend(counted(&random.some_bytes(300))),
        ERROR | WARNING => message.extend(random.bytes(32)),
        PING => message.extend(random.bytes(2)),
        _ => {}
    }
    message.extend(counted(&random.some_bytes(4_000)));
    let namespace = u64::from(kind != INIT);
    message.extend(stream(random, &BUILT_IN, namespace, 300, rules));
    message
}

/// An init up to its address: two feature maps and one network or two.
fn init_front(random: &mut Random) -> Vec<u8> {
    let mut init = INIT.to_be_bytes().to_vec();
    for _ in 0..2 {
        init.extend(counted(&random.some_bytes(20)));
    }
    let networks = random.one_of(&[32, 64]);
    init.extend(record(NETWORKS, &random.bytes(networks)));
    init
}

/// An init with networks and an address.
pub fn init_with_address(random: &mut Random, address: &[u8]) -> Vec<u8> {
    let mut init = init_front(random);
    init.extend(record(REMOTE_ADDR, address));
    init
}

/// An init of so many bytes, at least 400, whose address is of an unknown type.
pub fn filled_init(random: &mut Random, length: usize) -> Vec<u8> {
    let mut init = init_front(random);
    // The record's type takes one byte, its length three.
    let mut address = random.bytes(length - init.len() - 4);
    address[0] = random.one_of(&[0, 6, 255]);
    init.extend(record(REMOTE_ADDR, &address));
    init
}

/// A message of any type, valid, with a faulty extension, damaged, or of about 65,535 bytes.
pub fn any_message(random: &mut Random) -> Vec<u8> {
    let rules = Rules::any(random);
    let mut bytes = message(random, rules);
    match random.below(24) {
        0..=5 => bytes = damaged(random, &bytes),
        6..=8 => bytes[..2].copy_from_slice(&(random.wide_number() as u16).to_be_bytes()),
        9 => bytes = random.some_bytes(6),
        10 => {
            // Fills the message up with a record, or one byte too far.
            let count = LONGEST.saturating_sub(bytes.len() + 12) + random.below(3);
            bytes.extend(shortest(u64::MAX));
            bytes.extend(shortest(count as u64));
            bytes.resize(bytes.len() + count, 0);
        }
        11 => {
            let length = LONGEST + random.below(2);
            bytes = filled_init(random, length);
        }
        _ => {}
    }
    bytes
}

/// Arguments of the message writer.
#[derive(Clone, Debug)]
pub struct MessageCase {
    /// The type.
    pub kind: u64,
    /// Globalfeatures or channel.
    pub first: Vec<u8>,
    /// Features, data or filler.
    pub last: Vec<u8>,
    /// A ping's wanted count.
    pub wanted: u16,
    /// The extension's triples.
    pub triples: Vec<u64>,
    /// Where the extension's values lie.
    pub source: Vec<u8>,
}

/// Arguments for the message writer, valid or with a fault or two.
pub fn message_case(random: &mut Random) -> MessageCase {
    let mut kind = u64::from(random.one_of(&[INIT, ERROR, WARNING, PING, PONG]));
    let namespace = u64::from(kind != u64::from(INIT));
    let source = stream(random, &BUILT_IN, namespace, 300, Rules::Kept);
    let mut triples = triples_of(&BUILT_IN, namespace, &source);
    if random.once_in(6) {
        damaged_triples(random, &mut triples, source.len());
    }
    if random.once_in(8) {
        kind = random.wide_number();
    }
    let first = match random.below(8) {
        0 => random.bytes(31),
        1 => random.bytes(33),
        2 => random.some_bytes(300),
        _ => random.bytes(32),
    };
    let last = match random.below(16) {
        0 => vec![0; 65_400 + random.below(300)],
        _ => random.some_bytes(300),
    };
    MessageCase { kind, first, last, wanted: random.number() as u16, triples, source }
}

/// Two feature maps.
pub fn feature_maps(random: &mut Random) -> (Vec<u8>, Vec<u8>) {
    (random.some_bytes(60), random.some_bytes(60))
}

/// A wanted count, often close to the limits.
pub fn wanted(random: &mut Random) -> u64 {
    match random.below(3) {
        0 => random.below(40) as u64,
        1 => 65_528 + random.below(10) as u64,
        _ => random.wide_number(),
    }
}

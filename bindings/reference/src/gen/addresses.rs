//! Address descriptors.

use super::{damaged, Random};
use crate::address::{DNS_NAME, IPV4, IPV6, TOR_V2, TOR_V3};

/// Type and rest of a descriptor.
#[derive(Clone, Debug)]
pub struct AddressCase {
    /// The type.
    pub kind: u8,
    /// The rest.
    pub rest: Vec<u8>,
}

impl AddressCase {
    /// The descriptor's bytes.
    pub fn bytes(&self) -> Vec<u8> {
        [&[self.kind], &self.rest[..]].concat()
    }
}

/// A rest by its type; that of an unknown one is empty at times.
fn rest(random: &mut Random, kind: u8) -> Vec<u8> {
    let count = match kind {
        IPV4 => 6,
        IPV6 => 18,
        TOR_V2 => 12,
        TOR_V3 => 37,
        DNS_NAME => {
            let longest = random.one_of(&[1, 20, 20, 20, 255]);
            let name = 1 + random.below(longest);
            return [&[name as u8], &random.bytes(name + 2)[..]].concat();
        }
        _ => random.one_of(&[0, 1, 6, 40]),
    };
    random.bytes(count)
}

/// A descriptor of one of the five types, or of an unknown one.
pub fn descriptor(random: &mut Random) -> AddressCase {
    let any = random.byte();
    let kind = random.one_of(&[IPV4, IPV6, TOR_V2, TOR_V3, DNS_NAME, DNS_NAME, 0, 6, any]);
    AddressCase { kind, rest: rest(random, kind) }
}

/// One of the five types and a rest that it does not have: a byte short or long, cut, or a name without bytes.
fn wrong_length(random: &mut Random) -> AddressCase {
    let kind = random.one_of(&[IPV4, IPV6, TOR_V2, TOR_V3, DNS_NAME, DNS_NAME]);
    let mut rest = rest(random, kind);
    match random.below(8) {
        0..=1 => drop(rest.pop()),
        2..=3 => rest.push(random.byte()),
        4 => rest.truncate(random.below(rest.len())),
        5 => rest.extend(random.bytes(2)),
        6 if kind == DNS_NAME => rest[0] ^= 1 << random.below(8),
        _ if kind == DNS_NAME => rest = vec![0; random.one_of(&[0, 1, 3])],
        _ => rest.clear(),
    }
    AddressCase { kind, rest }
}

/// A value that is no descriptor.
pub(super) fn no_descriptor(random: &mut Random) -> Vec<u8> {
    if random.once_in(8) {
        Vec::new()
    } else {
        wrong_length(random).bytes()
    }
}

/// Type and rest for the writer: those of a descriptor, with a wrong length, or any.
pub fn address_case(random: &mut Random) -> AddressCase {
    match random.below(8) {
        0..=2 => wrong_length(random),
        3 => AddressCase { kind: random.byte(), rest: random.some_bytes(400) },
        _ => descriptor(random),
    }
}

/// A value for the reader: a descriptor, one with a wrong length, damaged, or any bytes.
pub fn address_value(random: &mut Random) -> Vec<u8> {
    match random.below(8) {
        0..=2 => no_descriptor(random),
        3 => {
            let bytes = descriptor(random).bytes();
            damaged(random, &bytes)
        }
        4 => random.some_bytes(400),
        _ => descriptor(random).bytes(),
    }
}

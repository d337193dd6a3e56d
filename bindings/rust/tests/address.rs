//! Addresses: what is read and written, what is refused, where an init has one, and the words of each.
mod common;

use common::refused;
use tockplover::address::{address_type, read, write, Address};
use tockplover::message::{self, Payload};

/// The bytes of Tor v3's own example, and its name.
const ONION: [u8; 35] = [
    0x79, 0xbc, 0xc6, 0x25, 0x18, 0x4b, 0x05, 0x19, 0x49, 0x75, 0xc2, 0x8b, 0x66, 0xb6, 0x6b, 0x04, 0x69, 0xf7, 0xf6, 0x55, 0x6f, 0xb1,
    0xac, 0x31, 0x89, 0xa7, 0x9b, 0x40, 0xdd, 0xa3, 0x2f, 0x1f, 0x21, 0x47, 0x03,
];
const ONION_NAME: &str = "pg6mmjiyjmcrsslvykfwnntlaru7p5svn6y2ymmju6nubxndf4pscryd";

/// A host with port 9735 behind it.
fn with_port(host: &[u8]) -> Vec<u8> {
    [host, &[0x26, 0x07]].concat()
}

/// A name with its length before it and port 9735 behind it.
fn name(name: &[u8]) -> Vec<u8> {
    with_port(&[&[name.len() as u8], name].concat())
}

/// The words of an address, whatever its rest is.
fn words(kind: u8, rest: &[u8]) -> String {
    Address { kind, rest }.to_string()
}

/// Whether a rest is one of its type, by document 02.
fn is_rest(kind: u8, rest: &[u8]) -> bool {
    match kind {
        1 => rest.len() == 6,
        2 => rest.len() == 18,
        3 => rest.len() == 12,
        4 => rest.len() == 37,
        5 => rest
            .first()
            .is_some_and(|&length| length > 0 && rest.len() == usize::from(length) + 3),
        _ => true,
    }
}

/// The known types, and some that are not.
const KINDS: [u8; 10] = [0, 1, 2, 3, 4, 5, 6, 7, 127, 255];

/// Rests of many lengths for any type: ones, a name that is as long as its length byte says, and one that is not.
fn rests() -> impl Iterator<Item = Vec<u8>> {
    (0..=300).flat_map(|size: usize| {
        let right = size.saturating_sub(3) as u8;
        [1, right, right.wrapping_add(1)].map(|first| {
            let mut rest = vec![1; size];
            rest.iter_mut().take(1).for_each(|byte| *byte = first);
            rest
        })
    })
}

// ---- read and written

#[test]
fn a_rest_is_one_of_its_type_or_refused() {
    for kind in KINDS {
        for rest in rests() {
            let value = [&[kind][..], &rest].concat();
            let mut out = vec![7; value.len() + 1];
            if is_rest(kind, &rest) {
                assert_eq!(read(&value), Ok(Address { kind, rest: &rest }));
                assert_eq!(write(kind, &rest, &mut out), Ok(&value[..]));
                assert_eq!(out[value.len()], 7);
            } else {
                assert_eq!(refused(read(&value)), (8, 0, 0));
                assert_eq!(refused(write(kind, &rest, &mut out)), (8, 0, 0));
                assert!(out.iter().all(|&byte| byte == 7));
            }
        }
    }
}

#[test]
fn a_rest_is_a_part_of_the_value() {
    let value = [9, 1, 2, 3];
    assert_eq!(read(&value).unwrap().rest.as_ptr_range(), value[1..].as_ptr_range());
    assert_eq!(read(&[9]), Ok(Address { kind: 9, rest: &[] }));
}

#[test]
fn values_that_are_no_descriptor() {
    for value in [
        &[][..],
        &[1],
        &[5],
        &[5, 0],
        &[5, 0, 0, 0],
        &[5, 1, b'a', 0],
        &[5, 1, b'a', 0, 0, 0],
    ] {
        assert_eq!(refused(read(value)), (8, 0, 0), "{value:?}");
    }
}

#[test]
fn an_output_that_is_too_short() {
    let mut out = [7; 6];
    assert_eq!(refused(write(address_type::IPV4, &[0; 6], &mut out)), (12, 0, 0));
    assert_eq!(refused(write(address_type::IPV4, &[0; 5], &mut [])), (8, 0, 0));
    assert_eq!(refused(write(9, &[], &mut [])), (12, 0, 0));
    assert_eq!(out, [7; 6]);
    assert_eq!(write(9, &[], &mut out), Ok(&[9][..]));
    assert_eq!(out, [9, 7, 7, 7, 7, 7]);
}

// ---- the address of an init

#[test]
fn where_an_init_has_its_address() {
    let mut out = [0; 64];
    let init = Payload::Init {
        globalfeatures: &[1],
        features: &[2, 3],
    };
    let descriptor = [5, 1, b'a', 0, 80];
    let networks = [4; 32];
    let source = [&networks[..], &descriptor].concat();
    let init = message::write(init, &[1, 0, 32, 3, 32, 5, 5, 0, 0], &source, &mut out).unwrap();
    let address = message::address(init).unwrap();
    assert_eq!(address, descriptor);
    assert!(init.as_ptr_range().contains(&address.as_ptr()));
    assert_eq!(read(address).unwrap().to_string(), "DNS name a:80");
}

#[test]
fn messages_without_an_address() {
    for message in [
        &[0, 16, 0, 0, 0, 0][..],
        &[0, 16, 0, 0, 0, 0, 5, 1, 9],
        // record 3 of another message is none, whatever it is
        &[0, 19, 0, 0, 3, 7, 1, 127, 0, 0, 1, 0x26, 0x07],
        &[0, 19, 0, 0, 3, 0],
        &[0, 21, 3, 1, 9],
    ] {
        assert_eq!(refused(message::address(message)), (15, 0, 3), "{message:?}");
    }
}

#[test]
fn messages_that_are_refused() {
    for (message, wanted) in [
        (&[][..], (20, 0, 0)),
        (&[0, 16, 0, 0], (20, 0, 16)),
        (&[0, 20], (22, 0, 20)),
        (&[0, 16, 0, 0, 0, 0, 3, 0], (8, 6, 3)),
        (&[0, 16, 0, 0, 0, 0, 1, 0, 3, 2, 5, 0], (8, 8, 3)),
        (&[0, 16, 0, 0, 0, 0, 3, 1, 9, 4, 0], (7, 9, 4)),
    ] {
        assert_eq!(refused(message::address(message)), wanted, "{message:?}");
        assert_eq!(refused(message::read(message, &mut [0; 16])), wanted, "{message:?}");
    }
    assert_eq!(refused(message::address(&[0; 65_536])), (21, 0, 0));
}

#[test]
fn an_address_is_written_into_an_init_only_if_it_is_one() {
    let init = Payload::Init {
        globalfeatures: &[],
        features: &[],
    };
    let mut out = [7; 32];
    assert_eq!(refused(message::write(init, &[3, 0, 0], &[], &mut out)), (8, 0, 3));
    assert_eq!(refused(message::write(init, &[3, 0, 5], &[1, 127, 0, 0, 1], &mut out)), (8, 0, 3));
    assert_eq!(out, [7; 32]);
    assert_eq!(
        message::write(init, &[3, 0, 1], &[9], &mut out),
        Ok(&[0, 16, 0, 0, 0, 0, 3, 1, 9][..])
    );
}

// ---- in words

#[test]
fn the_words_of_each_type() {
    assert_eq!(words(1, &with_port(&[127, 0, 0, 1])), "IPv4 127.0.0.1:9735");
    assert_eq!(words(1, &[255; 6]), "IPv4 255.255.255.255:65535");
    assert_eq!(words(1, &[0; 6]), "IPv4 0.0.0.0:0");
    let loopback = 1_u128.to_be_bytes();
    assert_eq!(words(2, &with_port(&loopback)), "IPv6 [::1]:9735");
    let documented = 0x2001_0db8_0000_0000_0000_00ab_0000_000c_u128.to_be_bytes();
    assert_eq!(words(2, &with_port(&documented)), "IPv6 [2001:db8::ab:0:c]:9735");
    assert_eq!(words(2, &[0; 18]), "IPv6 [::]:0");
    let onion = [0x00, 0x44, 0x32, 0x14, 0xc7, 0x42, 0x75, 0xbe, 0x77, 0xdf];
    assert_eq!(words(3, &with_port(&onion)), "Tor v2 abcdefghij234567.onion:9735");
    // RFC 4648 has "fooba" for five whole bytes
    assert_eq!(words(3, &with_port(b"foobafooba")), "Tor v2 mzxw6ytbmzxw6ytb.onion:9735");
    assert_eq!(words(3, &[255; 12]), format!("Tor v2 {}.onion:65535", "7".repeat(16)));
    assert_eq!(words(4, &with_port(&ONION)), format!("Tor v3 {ONION_NAME}.onion:9735"));
    assert_eq!(words(4, &[0; 37]), format!("Tor v3 {}.onion:0", "a".repeat(56)));
    assert_eq!(words(5, &name(b"example.org")), "DNS name example.org:9735");
    assert_eq!(words(5, &name(b"a")), "DNS name a:9735");
    assert_eq!(words(5, &name(&[b'a'; 255])), format!("DNS name {}:9735", "a".repeat(255)));
    assert_eq!(words(9, &[1, 2, 3]), "type 9, 3 bytes: 010203");
    assert_eq!(words(0, &[0xab]), "type 0, 1 byte: ab");
    assert_eq!(words(255, &[]), "type 255, no bytes");
}

#[test]
fn a_port_is_big_endian() {
    assert_eq!(words(1, &[10, 0, 0, 1, 0, 80]), "IPv4 10.0.0.1:80");
    assert_eq!(words(5, &[1, b'a', 1, 0]), "DNS name a:256");
}

#[test]
fn no_name_acts_on_a_terminal() {
    assert_eq!(
        words(5, &name(b"\x1b[2J\n\r\t\0 \x7f\x80\xff")),
        r"DNS name \x1b[2J\x0a\x0d\x09\x00\x20\x7f\x80\xff:9735"
    );
    assert_eq!(words(5, &name("é\u{202e}".as_bytes())), r"DNS name \xc3\xa9\xe2\x80\xae:9735");
    // a backslash is told from one that escapes
    assert_eq!(words(5, &name(br"a\x20b")), r"DNS name a\\x20b:9735");
    assert_eq!(words(5, &name(b"a:80")), "DNS name a:80:9735");
    let every: Vec<u8> = (0..=255).collect();
    for part in every.chunks(100) {
        assert!(words(5, &name(part)).bytes().all(|byte| (32..=126).contains(&byte)));
    }
}

/// Of no two names the words are the same.
#[test]
fn a_name_can_be_read_from_its_words() {
    for byte in 0..=255 {
        let words = words(5, &name(&[byte]));
        let shown = words
            .strip_prefix("DNS name ")
            .and_then(|words| words.strip_suffix(":9735"))
            .unwrap();
        let read = match shown.strip_prefix('\\') {
            Some("\\") => b'\\',
            Some(digits) => u8::from_str_radix(digits.strip_prefix('x').unwrap(), 16).unwrap(),
            None => shown.as_bytes()[0],
        };
        assert_eq!(read, byte);
    }
}

/// The fields are public, so that a caller may make any address; one that is not of its type is told by its bytes.
#[test]
fn an_address_that_is_none_is_told_by_its_bytes() {
    for (kind, rest, wanted) in [
        (1, &[][..], "type 1, no bytes"),
        (1, &[127, 0, 0, 1, 0x26], "type 1, 5 bytes: 7f00000126"),
        (1, &[127, 0, 0, 1, 0x26, 0x07, 0], "type 1, 7 bytes: 7f000001260700"),
        (2, &[1], "type 2, 1 byte: 01"),
        (5, &[], "type 5, no bytes"),
        (5, &[0], "type 5, 1 byte: 00"),
        (5, &[0, 0, 80], "type 5, 3 bytes: 000050"),
        (5, &[2, b'a', 0, 80], "type 5, 4 bytes: 02610050"),
        (5, &[255], "type 5, 1 byte: ff"),
    ] {
        assert_eq!(words(kind, rest), wanted);
    }
    for kind in KINDS {
        for rest in rests() {
            let known = (1..=5).contains(&kind) && is_rest(kind, &rest);
            assert_eq!(words(kind, &rest).starts_with("type "), !known, "{kind} {rest:?}");
        }
    }
}

#[test]
fn nothing_of_a_long_rest_is_cut() {
    let rest = [0xab; 65_534];
    assert_eq!(words(9, &rest), format!("type 9, 65534 bytes: {}", "ab".repeat(65_534)));
}

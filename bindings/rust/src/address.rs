//! Address descriptors, as the remote_addr of an init is one: read, written, and told in words.
//!
//! A type byte comes first, and behind it a rest by the type. A port has two bytes, the high one first.
//!
//! | type | address | rest |
//! |---|---|---|
//! | 1 | IPv4 | 4 bytes and the port |
//! | 2 | IPv6 | 16 bytes and the port |
//! | 3 | Tor v2 | 10 bytes and the port |
//! | 4 | Tor v3 | 35 bytes and the port |
//! | 5 | a DNS name | a byte with its length, at least 1, the name and the port |
//! | any other | unknown, and kept as bytes | any bytes, also none |
use core::fmt::{self, Write};
use core::net::{Ipv4Addr, Ipv6Addr};

use crate::raw;
use crate::Refusal;

/// The types of addresses. A descriptor may have another type too.
pub mod address_type {
    /// IPv4: 4 bytes and the port.
    pub const IPV4: u8 = 1;
    /// IPv6: 16 bytes and the port.
    pub const IPV6: u8 = 2;
    /// Tor v2: 10 bytes and the port.
    pub const TOR_V2: u8 = 3;
    /// Tor v3: 35 bytes and the port.
    pub const TOR_V3: u8 = 4;
    /// A DNS name: its length, the name and the port.
    pub const DNS_NAME: u8 = 5;
}

/// An address.
///
/// It is written in words, as `IPv4 127.0.0.1:9735`; an address of an unknown type, or whose rest is not one of its type, as its bytes. What is
/// no printable character in a DNS name is escaped, so that no terminal acts on it.
///
/// ```
/// use tockplover::address::Address;
/// let words = |kind, rest| Address { kind, rest }.to_string();
/// assert_eq!(words(1, &[127, 0, 0, 1, 0x26, 0x07]), "IPv4 127.0.0.1:9735");
/// assert_eq!(words(5, b"\x0bexample.org\x26\x07"), "DNS name example.org:9735");
/// assert_eq!(words(5, b"\x04\x1b[2J\x26\x07"), r"DNS name \x1b[2J:9735");
/// assert_eq!(words(9, &[1, 2, 3]), "type 9, 3 bytes: 010203");
/// ```
#[derive(Clone, Copy, Debug, PartialEq, Eq)]
pub struct Address<'a> {
    /// Its type, of [`address_type`] or another.
    pub kind: u8,
    /// What stands behind the type byte.
    pub rest: &'a [u8],
}

/// Reads a value as an address descriptor; its rest is a part of the value. Refused: 8.
///
/// ```
/// use tockplover::address::{self, address_type};
/// let read = address::read(&[1, 127, 0, 0, 1, 0x26, 0x07])?;
/// assert_eq!((read.kind, read.rest), (address_type::IPV4, &[127, 0, 0, 1, 0x26, 0x07][..]));
/// // without its port
/// assert_eq!(address::read(&[1, 127, 0, 0, 1]).unwrap_err().number, tockplover::numbers::VALUE_LENGTH);
/// # Ok::<(), tockplover::Refusal>(())
/// ```
pub fn read(value: &[u8]) -> Result<Address<'_>, Refusal> {
    let answer = raw::address_read(value);
    raw::accepted(answer.refusal)?;
    Ok(Address {
        kind: answer.kind,
        rest: &value[answer.rest.start..][..answer.rest.size],
    })
}

/// Writes an address descriptor at the front of an output, which needs a byte more than the rest has. Refused: 8 where the rest is not one of
/// its type, 12.
///
/// ```
/// use tockplover::address::{self, address_type};
/// let mut out = [0; 7];
/// assert_eq!(address::write(address_type::IPV4, &[127, 0, 0, 1, 0x26, 0x07], &mut out)?, [1, 127, 0, 0, 1, 0x26, 0x07]);
/// # Ok::<(), tockplover::Refusal>(())
/// ```
pub fn write<'o>(kind: u8, rest: &[u8], out: &'o mut [u8]) -> Result<&'o [u8], Refusal> {
    raw::written(raw::address_write(kind, rest, out), out)
}

/// What an address of a known type has before its port.
enum Host<'a> {
    Ipv4(Ipv4Addr),
    Ipv6(Ipv6Addr),
    /// The version, and the bytes of the name.
    Tor(u8, &'a [u8]),
    Name(&'a [u8]),
}

impl<'a> Host<'a> {
    /// The host of a type; none where the type is unknown or the bytes are not those of one.
    fn of(kind: u8, bytes: &'a [u8]) -> Option<Self> {
        match (kind, bytes) {
            (address_type::IPV4, _) => Some(Host::Ipv4(<[u8; 4]>::try_from(bytes).ok()?.into())),
            (address_type::IPV6, _) => Some(Host::Ipv6(<[u8; 16]>::try_from(bytes).ok()?.into())),
            (address_type::TOR_V2, _) if bytes.len() == 10 => Some(Host::Tor(2, bytes)),
            (address_type::TOR_V3, _) if bytes.len() == 35 => Some(Host::Tor(3, bytes)),
            (address_type::DNS_NAME, [length @ 1..=255, name @ ..]) if name.len() == usize::from(*length) => Some(Host::Name(name)),
            _ => None,
        }
    }
}

impl fmt::Display for Host<'_> {
    fn fmt(&self, f: &mut fmt::Formatter<'_>) -> fmt::Result {
        match self {
            Host::Ipv4(address) => write!(f, "IPv4 {address}"),
            Host::Ipv6(address) => write!(f, "IPv6 [{address}]"),
            Host::Tor(version, bytes) => {
                write!(f, "Tor v{version} ")?;
                write_base32(bytes, f)?;
                f.write_str(".onion")
            }
            Host::Name(name) => {
                f.write_str("DNS name ")?;
                write_name(name, f)
            }
        }
    }
}

/// Writes bytes, which come in fives, in the lower-case base32 of RFC 4648.
fn write_base32(bytes: &[u8], f: &mut fmt::Formatter<'_>) -> fmt::Result {
    const LETTERS: &[u8; 32] = b"abcdefghijklmnopqrstuvwxyz234567";
    for five in bytes.chunks_exact(5) {
        let bits = five.iter().fold(0, |bits: u64, &byte| bits << 8 | u64::from(byte));
        for shift in (0..40).step_by(5).rev() {
            f.write_char(LETTERS[(bits >> shift & 31) as usize].into())?;
        }
    }
    Ok(())
}

/// Writes a name, in which only printable ASCII stands for itself: blanks, other bytes and backslashes are escaped.
fn write_name(name: &[u8], f: &mut fmt::Formatter<'_>) -> fmt::Result {
    for &byte in name {
        match byte {
            b'\\' => f.write_str("\\\\")?,
            33..=126 => f.write_char(byte.into())?,
            _ => write!(f, "\\x{byte:02x}")?,
        }
    }
    Ok(())
}

/// Writes how many bytes there are, and the bytes as lower-case digits.
fn write_bytes(bytes: &[u8], f: &mut fmt::Formatter<'_>) -> fmt::Result {
    match bytes.len() {
        0 => f.write_str("no bytes"),
        1 => f.write_str("1 byte: "),
        count => write!(f, "{count} bytes: "),
    }?;
    bytes.iter().try_for_each(|byte| write!(f, "{byte:02x}"))
}

/// Parts the last two bytes, which are the port.
fn parted(rest: &[u8]) -> Option<(&[u8], u16)> {
    let (host, port) = rest.split_last_chunk()?;
    Some((host, u16::from_be_bytes(*port)))
}

impl fmt::Display for Address<'_> {
    fn fmt(&self, f: &mut fmt::Formatter<'_>) -> fmt::Result {
        let told = parted(self.rest).and_then(|(bytes, port)| Some((Host::of(self.kind, bytes)?, port)));
        match told {
            Some((host, port)) => write!(f, "{host}:{port}"),
            None => {
                write!(f, "type {}, ", self.kind)?;
                write_bytes(self.rest, f)
            }
        }
    }
}

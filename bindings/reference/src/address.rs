//! Address descriptors: a type byte and the rest, whose length goes by the type.

use crate::output::Output;
use crate::refusal::{ensure, NO_ROOM, VALUE_LENGTH};
use crate::{Part, Refusal};

/// An IPv4 address and a port.
pub const IPV4: u8 = 1;
/// An IPv6 address and a port.
pub const IPV6: u8 = 2;
/// A Tor v2 address and a port.
pub const TOR_V2: u8 = 3;
/// A Tor v3 address and a port.
pub const TOR_V3: u8 = 4;
/// A DNS name, with its length before it, and a port.
pub const DNS_NAME: u8 = 5;

/// A descriptor that was read.
#[derive(Clone, Copy, Debug, PartialEq, Eq)]
pub struct Descriptor {
    /// Its type.
    pub kind: u8,
    /// Where its rest lies in the value.
    pub rest: Part,
}

/// Whether a rest is one of its type; that of an unknown type is not judged.
fn is_rest(kind: u8, rest: &[u8]) -> bool {
    match kind {
        IPV4 => rest.len() == 6,
        IPV6 => rest.len() == 18,
        TOR_V2 => rest.len() == 12,
        TOR_V3 => rest.len() == 37,
        DNS_NAME => matches!(rest, [name @ 1..=255, behind @ ..] if behind.len() == usize::from(*name) + 2),
        _ => true,
    }
}

/// Whether a value is a descriptor.
pub fn is_descriptor(value: &[u8]) -> bool {
    value.split_first().is_some_and(|(&kind, rest)| is_rest(kind, rest))
}

/// Reads a value: the type, and where the rest lies; 8 where it is no descriptor.
pub fn read(value: &[u8]) -> Result<Descriptor, Refusal> {
    let wrong = Refusal::bare(VALUE_LENGTH);
    let (&kind, rest) = value.split_first().ok_or(wrong)?;
    ensure(is_rest(kind, rest), wrong)?;
    Ok(Descriptor { kind, rest: Part { start: 1, length: rest.len() } })
}

/// Writes a descriptor to the front of the output and gives its length: 8, 12.
pub fn write(kind: u8, rest: &[u8], out: &mut [u8]) -> Result<usize, Refusal> {
    ensure(is_rest(kind, rest), Refusal::bare(VALUE_LENGTH))?;
    let length = 1 + rest.len();
    let mut output = Output::new(out.get_mut(..length).ok_or(Refusal::bare(NO_ROOM))?);
    output.bytes(&[kind]);
    output.bytes(rest);
    Ok(length)
}

#[cfg(test)]
mod tests {
    use super::*;

    #[test]
    fn a_descriptor_is_read_and_written() {
        let value = [1, 127, 0, 0, 1, 0x26, 0x07];
        assert_eq!(read(&value), Ok(Descriptor { kind: 1, rest: Part { start: 1, length: 6 } }));
        let mut out = [0xa5; 9];
        assert_eq!(write(1, &value[1..], &mut out), Ok(7));
        assert_eq!(out, [1, 127, 0, 0, 1, 0x26, 0x07, 0xa5, 0xa5]);
        assert_eq!(write(255, &[], &mut out[8..]), Ok(1));
        assert_eq!(out[7..], [0xa5, 255]);
    }

    #[test]
    fn order_of_refusals() {
        assert_eq!(write(5, &[0, 0, 0], &mut []), Err(Refusal::bare(8)));
        let mut out = [0xa5; 4];
        assert_eq!(write(5, &[1, b'a', 0, 80], &mut out), Err(Refusal::bare(12)));
        assert_eq!(write(0, &[], &mut []), Err(Refusal::bare(12)));
        assert_eq!(write(1, &[0; 7], &mut out), Err(Refusal::bare(8)));
        assert_eq!(out, [0xa5; 4]);
    }
}

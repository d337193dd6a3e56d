//! BigSize: a number of 64 bits in 1, 3, 5 or 9 bytes, big-endian, in the shortest form only.

use crate::refusal::{NO_BYTES, NO_ROOM, TYPE_CUT, TYPE_NOT_SHORTEST};
use crate::Refusal;

/// A number that was read and how many bytes it took.
#[derive(Clone, Copy, Debug, PartialEq, Eq)]
pub struct BigSize {
    /// The number.
    pub value: u64,
    /// 1, 3, 5 or 9.
    pub width: usize,
}

/// Reads the BigSize at the front of the bytes; what stands behind it is not looked at.
pub fn read(bytes: &[u8]) -> Result<BigSize, Refusal> {
    parse(bytes).map_err(|number| Refusal::lacking(number, 0, 0, missing(bytes)))
}

/// Reads like [`read`], with the refusal's number alone; in line, since every record asks twice.
#[inline(always)]
pub(crate) fn parse(bytes: &[u8]) -> Result<BigSize, u8> {
    let (&first, rest) = bytes.split_first().ok_or(NO_BYTES)?;
    let (value, least, width) = match first {
        0..=252 => return Ok(BigSize { value: first.into(), width: 1 }),
        253 => (front(rest).map(|bytes| u16::from_be_bytes(bytes).into()), 253, 3),
        254 => (front(rest).map(|bytes| u32::from_be_bytes(bytes).into()), 1 << 16, 5),
        255 => (front(rest).map(u64::from_be_bytes), 1 << 32, 9),
    };
    match value {
        None => Err(TYPE_CUT),
        // A number that a shorter form holds is not in its shortest one.
        Some(value) if value < least => Err(TYPE_NOT_SHORTEST),
        Some(value) => Ok(BigSize { value, width }),
    }
}

/// How many bytes the number at the front lacks: what its first byte announces less what is there; 1 where it is not
/// begun, 0 where it is whole. Only a refusal asks.
#[cold]
pub(crate) fn missing(bytes: &[u8]) -> u64 {
    let width: usize = match bytes.first() {
        None | Some(0..=252) => 1,
        Some(253) => 3,
        Some(254) => 5,
        Some(255) => 9,
    };
    width.saturating_sub(bytes.len()) as u64
}

/// Reads a number in any of its forms, long ones too; nothing where it is cut short.
#[inline(always)]
pub(crate) fn peek(bytes: &[u8]) -> Option<BigSize> {
    let (&first, rest) = bytes.split_first()?;
    let (value, width) = match first {
        0..=252 => (first.into(), 1),
        253 => (u16::from_be_bytes(front(rest)?).into(), 3),
        254 => (u32::from_be_bytes(front(rest)?).into(), 5),
        255 => (u64::from_be_bytes(front(rest)?), 9),
    };
    Some(BigSize { value, width })
}

/// The first N bytes, if there are as many.
fn front<const N: usize>(bytes: &[u8]) -> Option<[u8; N]> {
    bytes.first_chunk().copied()
}

/// How many bytes the shortest form has.
pub const fn width(value: u64) -> usize {
    match value {
        0..=252 => 1,
        253..=0xffff => 3,
        0x1_0000..=0xffff_ffff => 5,
        _ => 9,
    }
}

/// Writes the shortest form to the front of the output and gives its width.
pub fn write(value: u64, out: &mut [u8]) -> Result<usize, Refusal> {
    let width = width(value);
    let out = out.get_mut(..width).ok_or(Refusal::bare(NO_ROOM))?;
    put(value, out);
    Ok(width)
}

/// Puts the shortest form into an output of exactly its width.
pub(crate) fn put(value: u64, out: &mut [u8]) {
    let (first, rest) = match out {
        [only] => return *only = value as u8,
        [first, rest @ ..] => (first, rest),
        [] => return,
    };
    *first = match rest.len() {
        2 => 253,
        4 => 254,
        _ => 255,
    };
    rest.copy_from_slice(&value.to_be_bytes()[8 - rest.len()..]);
}

#[cfg(test)]
mod tests {
    use super::*;

    #[test]
    fn widths_at_their_limits() {
        let limits =
            [(0, 1), (252, 1), (253, 3), (65_535, 3), (65_536, 5), (u32::MAX.into(), 5), (1 << 32, 9), (u64::MAX, 9)];
        for (value, bytes) in limits {
            let mut out = [0xa5; 10];
            assert_eq!(write(value, &mut out), Ok(bytes));
            assert_eq!(read(&out), Ok(BigSize { value, width: bytes }));
            assert!(out[bytes..].iter().all(|&b| b == 0xa5));
            assert_eq!(write(value, &mut out[..bytes - 1]), Err(Refusal::bare(NO_ROOM)));
        }
    }

    #[test]
    fn long_forms_are_peeked_at() {
        assert_eq!(peek(&[]), None);
        assert_eq!(peek(&[252, 9]), Some(BigSize { value: 252, width: 1 }));
        for (width, first) in [(3, 0xfd), (5, 0xfe), (9, 0xff)] {
            let mut bytes = vec![0; width + 1];
            (bytes[0], bytes[width - 1]) = (first, 7);
            assert_eq!(peek(&bytes), Some(BigSize { value: 7, width }));
            assert_eq!(peek(&bytes[..width - 1]), None);
        }
    }

    #[test]
    fn a_cut_goes_before_a_long_form() {
        assert_eq!(read(&[]), Err(Refusal::lacking(13, 0, 0, 1)));
        assert_eq!(read(&[0xfd, 0]), Err(Refusal::lacking(1, 0, 0, 1)));
        assert_eq!(read(&[0xfd, 0, 0xfc]), Err(Refusal::bare(2)));
        assert_eq!(read(&[0xfe, 0, 0, 0xff, 0xff]), Err(Refusal::bare(2)));
        assert_eq!(read(&[0xff, 0, 0, 0, 0, 0xff, 0xff, 0xff, 0xff]), Err(Refusal::bare(2)));
    }

    #[test]
    fn what_is_announced_less_what_is_there() {
        assert_eq!(read(&[0xfd]), Err(Refusal::lacking(1, 0, 0, 2)));
        assert_eq!(read(&[0xfe]), Err(Refusal::lacking(1, 0, 0, 4)));
        assert_eq!(read(&[0xff]), Err(Refusal::lacking(1, 0, 0, 8)));
        assert_eq!(read(&[0xff, 0]), Err(Refusal::lacking(1, 0, 0, 7)));
        // Nothing is missing from a whole number, in its shortest form or not.
        for whole in [&[0][..], &[252, 9], &[0xfd, 0, 0], &[0xfe, 0, 0, 0, 0, 9], &[0xff; 9]] {
            assert_eq!(missing(whole), 0);
        }
    }
}

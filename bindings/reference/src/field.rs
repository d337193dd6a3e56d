//! A field made: its type group, two length groups and its content.

use crate::bech32;
use crate::invoice::{FIELD_HEAD, NUMBER_GROUPS};
use crate::output::Output;
use crate::refusal::{ensure, FIELDS, NO_GROUP, NO_ROOM};
use crate::Refusal;

/// The most groups of a field's content, which two length groups count.
pub const MOST_GROUPS: usize = 1_023;

/// Makes a field of bytes, the last group filled up with zero bits, and gives its groups' count.
pub fn from_bytes(kind: u64, bytes: &[u8], out: &mut [u8]) -> Result<usize, Refusal> {
    let size = bech32::groups_for(bytes.len());
    let content = begin(kind, size, MOST_GROUPS, out)?;
    bech32::put_groups(bytes, content);
    Ok(FIELD_HEAD + size)
}

/// Makes a field of a number in as few groups as hold it, none for 0, and gives its groups' count.
pub fn from_number(kind: u64, number: u64, out: &mut [u8]) -> Result<usize, Refusal> {
    let size = (u64::BITS - number.leading_zeros()).div_ceil(5) as usize;
    let content = begin(kind, size, NUMBER_GROUPS, out)?;
    bech32::put_number(number, content);
    Ok(FIELD_HEAD + size)
}

/// Puts type and length once 34, 38 and 12 are passed, and gives the place of the content.
fn begin(kind: u64, size: usize, most: usize, out: &mut [u8]) -> Result<&mut [u8], Refusal> {
    ensure(kind <= 31, Refusal::bare(NO_GROUP))?;
    ensure(size <= most, Refusal::bare(FIELDS))?;
    let mut output = Output::new(out.get_mut(..FIELD_HEAD + size).ok_or(Refusal::bare(NO_ROOM))?);
    output.bytes(&[kind as u8, (size / 32) as u8, (size % 32) as u8]);
    Ok(output.take(size))
}

#[cfg(test)]
mod tests {
    use super::*;
    use crate::invoice::{field_bytes, field_number};

    #[test]
    fn fields_of_bytes() {
        let bytes: Vec<u8> = (0..640).map(|i| (i * 7) as u8).collect();
        for count in [0, 1, 2, 5, 32, 33, 639] {
            let mut out = [0xa5; 1_030];
            let made = from_bytes(13, &bytes[..count], &mut out).unwrap();
            assert_eq!(out[made], 0xa5);
            assert_eq!(out[0], 13);
            let size = usize::from(out[1]) * 32 + usize::from(out[2]);
            assert_eq!(made, 3 + size);
            let mut back = vec![0; count];
            assert_eq!(field_bytes(&out, 3, size as u64, &mut back), Ok(count));
            assert_eq!(back, bytes[..count]);
            assert_eq!(from_bytes(13, &bytes[..count], &mut out[..made - 1]), Err(Refusal::bare(12)));
        }
        assert_eq!(from_bytes(32, &bytes, &mut []), Err(Refusal::bare(34)));
        assert_eq!(from_bytes(31, &bytes, &mut []), Err(Refusal::bare(38)));
        assert_eq!(from_bytes(31, &bytes[..639], &mut []), Err(Refusal::bare(12)));
    }

    #[test]
    fn fields_of_numbers() {
        let sizes = [(0, 0), (1, 1), (31, 1), (32, 2), (60, 2), (1 << 35, 8), ((1 << 60) - 1, 12)];
        for (number, size) in sizes {
            let mut out = [0xa5; 16];
            assert_eq!(from_number(6, number, &mut out), Ok(3 + size));
            assert_eq!(out[..3], [6, 0, size as u8]);
            assert_eq!(out[3 + size], 0xa5);
            assert_eq!(field_number(&out, 3, size as u64), Ok(number));
            assert!(size == 0 || out[3] > 0);
        }
        assert_eq!(from_number(6, 1 << 60, &mut []), Err(Refusal::bare(38)));
        assert_eq!(from_number(256, 1 << 60, &mut []), Err(Refusal::bare(34)));
        assert_eq!(from_number(6, u64::MAX, &mut []), Err(Refusal::bare(38)));
        assert_eq!(from_number(6, 0, &mut [0; 2]), Err(Refusal::bare(12)));
    }
}

//! BigSize: a 64-bit number in 1, 3, 5 or 9 bytes, the shortest form only.
use crate::raw;
use crate::Refusal;

/// No number takes more bytes.
pub const MOST: usize = 9;

/// A number, and how many bytes it takes.
#[derive(Clone, Copy, Debug, PartialEq, Eq)]
#[non_exhaustive]
pub struct Number {
    /// The number.
    pub value: u64,
    /// 1, 3, 5 or 9.
    pub width: usize,
}

/// Reads the number at the front of some bytes; those behind it are not looked at. Refused: 13, 1, 2; 13 and 1 tell how many bytes are missing.
///
/// ```
/// let number = tockplover::bigsize::read(&[0xfd, 0x01, 0x00, 0x77])?;
/// assert_eq!((number.value, number.width), (256, 3));
/// assert_eq!(tockplover::bigsize::read(&[0xff, 0x00]).unwrap_err().missing, 7);
/// # Ok::<(), tockplover::Refusal>(())
/// ```
pub fn read(bytes: &[u8]) -> Result<Number, Refusal> {
    let answer = raw::bigsize_read(bytes);
    raw::accepted(answer.refusal)?;
    Ok(Number {
        value: answer.value,
        width: answer.width,
    })
}

/// Writes the shortest form of a number at the front of an output. Refused: 12.
///
/// ```
/// let mut out = [0; tockplover::bigsize::MOST];
/// assert_eq!(tockplover::bigsize::write(256, &mut out)?, [0xfd, 0x01, 0x00]);
/// # Ok::<(), tockplover::Refusal>(())
/// ```
pub fn write(value: u64, out: &mut [u8]) -> Result<&[u8], Refusal> {
    raw::written(raw::bigsize_write(value, out), out)
}

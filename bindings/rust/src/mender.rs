//! The mender: makes a stream right in frame that the old gateway wrote, with records out of order, doubled and spelled long.
use crate::raw;
use crate::Refusal;

/// What was changed, in four counts.
#[derive(Clone, Copy, Debug, Default, PartialEq, Eq)]
#[non_exhaustive]
pub struct Changes {
    /// Records moved: those whose place among the kept ones differs between the old and the new order.
    pub moved: usize,
    /// Copies dropped.
    pub dropped: usize,
    /// Types and lengths respelled in the records kept.
    pub respelled: usize,
    /// Bytes cut off at the end.
    pub cut: usize,
}

/// A stream that was mended.
#[derive(Clone, Copy, Debug, PartialEq, Eq)]
#[non_exhaustive]
pub struct Mended<'o> {
    /// The mended stream, the front of the output.
    pub stream: &'o [u8],
    /// What was changed.
    pub changes: Changes,
}

/// Mends a stream: writes its records in rising order, each once and spelled shortest. Of records of one type with the same value the first
/// stays, a record that is cut at the end goes with all behind it, and values are not judged. A right stream comes out the same.
///
/// The mended stream never takes more bytes than the old one, so that an output as long as that always suffices. The call takes up to about
/// 200,000 bytes of the stack. Refused: 14; 80 where records of one type have different values, with the place and the type of the first record
/// that disagrees with an earlier one; 12.
///
/// ```
/// // Type 5, then type 1 twice, the first time with a long length, and half a record.
/// let old = [5, 0, 1, 0xfd, 0, 1, 42, 1, 1, 42, 9];
/// let mut out = [0; 11];
/// let mended = tockplover::mender::mend(&old, &mut out)?;
/// assert_eq!(mended.stream, [1, 1, 42, 5, 0]);
/// let changes = mended.changes;
/// assert_eq!((changes.moved, changes.dropped, changes.respelled, changes.cut), (2, 1, 1, 1));
///
/// let refusal = tockplover::mender::mend(&[1, 1, 42, 1, 1, 43], &mut out).unwrap_err();
/// assert_eq!(refusal.to_string(), "refused 80 at 3 type 1: two records of one type have different values");
/// # Ok::<(), tockplover::Refusal>(())
/// ```
pub fn mend<'o>(stream: &[u8], out: &'o mut [u8]) -> Result<Mended<'o>, Refusal> {
    let answer = raw::mend(stream, out);
    raw::accepted(answer.refusal)?;
    let raw::Changes {
        moved,
        dropped,
        respelled,
        cut,
    } = answer.changes;
    Ok(Mended {
        stream: &out[..answer.size],
        changes: Changes {
            moved,
            dropped,
            respelled,
            cut,
        },
    })
}

//! The message writer.

use crate::message::{namespace_of, BUILT_IN, CHANNEL, ERROR, INIT, LONGEST, PING, PONG, WARNING};
use crate::output::Output;
use crate::refusal::{ensure, MESSAGE_CUT, MESSAGE_TOO_LONG, NO_ROOM, UNKNOWN_MESSAGE};
use crate::{stream_writer, table, Refusal};

/// Writes a message to the front of the output and gives its length.
///
/// `first` is init's globalfeatures, or the channel of an error or a warning; `last` is the features, the data or the
/// filler; `wanted` is a ping's. What the type has no part for is not looked at. The triples and their source make the
/// extension.
pub fn write(
    kind: u64,
    first: &[u8],
    last: &[u8],
    wanted: u16,
    triples: &[u64],
    source: &[u8],
    out: &mut [u8],
) -> Result<usize, Refusal> {
    let unknown = Refusal::at(UNKNOWN_MESSAGE, 0, kind);
    let known = u16::try_from(kind).map_err(|_| unknown)?;
    // What stands between the two type bytes and the last part with its length.
    let middle = match known {
        INIT => first.len().saturating_add(2),
        ERROR | WARNING => CHANNEL,
        PING => 2,
        PONG => 0,
        _ => return Err(unknown),
    };
    let has_channel = matches!(known, ERROR | WARNING);
    ensure(!has_channel || first.len() == CHANNEL, Refusal::at(MESSAGE_CUT, 0, kind))?;
    let rows = table::rows(&BUILT_IN);
    let extension = stream_writer::measure_rows(rows, namespace_of(known), triples, source)?;
    let payload = middle.saturating_add(last.len()).saturating_add(4);
    let length = payload.saturating_add(extension);
    ensure(length <= LONGEST, Refusal::bare(MESSAGE_TOO_LONG))?;
    let mut output = Output::new(out.get_mut(..length).ok_or(Refusal::bare(NO_ROOM))?);
    output.u16(known);
    match known {
        INIT => output.counted(first),
        ERROR | WARNING => output.bytes(first),
        PING => output.u16(wanted),
        _ => {}
    }
    output.counted(last);
    stream_writer::put(triples, source, output.take(extension));
    Ok(length)
}

#[cfg(test)]
mod tests {
    use super::*;

    #[test]
    fn the_five_types() {
        let mut out = [0xa5; 48];
        let channel = [7; 32];
        assert_eq!(write(16, &[1], &[2, 3], 9, &[3, 0, 1], &[42], &mut out), Ok(12));
        assert_eq!(out[..13], [0, 16, 0, 1, 1, 0, 2, 2, 3, 3, 1, 42, 0xa5]);
        assert_eq!(write(18, &[1], &[2, 3], 9, &[], &[], &mut out), Ok(8));
        assert_eq!(out[..9], [0, 18, 0, 9, 0, 2, 2, 3, 3]);
        assert_eq!(write(19, &[1], &[2, 3], 9, &[], &[], &mut out), Ok(6));
        assert_eq!(out[..6], [0, 19, 0, 2, 2, 3]);
        for kind in [17, 1] {
            assert_eq!(write(kind, &channel, b"no", 9, &[], &[], &mut out), Ok(38));
            assert_eq!(out[..2], [0, kind as u8]);
            assert_eq!(out[2..34], channel);
            assert_eq!(out[34..38], *b"\0\x02no");
        }
    }

    #[test]
    fn order_of_refusals() {
        let long = vec![0; 65_536];
        let out = &mut [0xa5; 8];
        let refused = |kind, first: &[u8], last: &[u8], triples: &[u64], out: &mut [u8]| {
            let refusal = write(kind, first, last, 0, triples, &long, out).unwrap_err();
            assert!(out.iter().all(|&b| b == 0xa5));
            (refusal.number, refusal.place, refusal.kind)
        };
        assert_eq!(refused(21, &[], &long, &[1], out), (22, 0, 21));
        assert_eq!(refused((1 << 16) + 16, &[], &[], &[], out), (22, 0, (1 << 16) + 16));
        assert_eq!(refused(17, &[0; 31], &long, &[1], out), (20, 0, 17));
        assert_eq!(refused(19, &[], &long, &[1], out), (16, 0, 0));
        assert_eq!(refused(19, &[], &long, &[1, 0, 0, 2, 0, 0], out), (7, 1, 2));
        assert_eq!(refused(16, &[], &long, &[1, 0, 31], out), (8, 0, 1));
        assert_eq!(refused(19, &[], &long, &[5, 0, 65_532], out), (14, 0, 0));
        assert_eq!(refused(19, &[], &long, &[5, 0, 3], out), (21, 0, 0));
        assert_eq!(refused(19, &[], &[0; 5], &[], out), (12, 0, 0));
    }
}

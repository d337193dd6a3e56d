//! The messages init, error, warning, ping and pong: read and written. Their extensions are judged by a table of their own.
use crate::raw;
use crate::stream::Reading;
use crate::Refusal;

/// No message has more bytes.
pub const MOST: usize = 65_535;

/// What stands before a message's extension.
#[derive(Clone, Copy, Debug, PartialEq, Eq)]
pub enum Payload<'m> {
    /// Type 16.
    Init {
        /// The first feature map.
        globalfeatures: &'m [u8],
        /// The second one.
        features: &'m [u8],
    },
    /// Type 17.
    Error {
        /// 32 bytes.
        channel: &'m [u8],
        /// What went wrong.
        content: &'m [u8],
    },
    /// Type 1.
    Warning {
        /// 32 bytes.
        channel: &'m [u8],
        /// What it warns of.
        content: &'m [u8],
    },
    /// Type 18.
    Ping {
        /// How many pong bytes it wants.
        wanted: u16,
        /// Bytes without a meaning.
        filler: &'m [u8],
    },
    /// Type 19.
    Pong {
        /// Bytes without a meaning.
        filler: &'m [u8],
    },
}

/// What a message says.
#[derive(Clone, Copy, Debug, PartialEq, Eq)]
pub enum Message<'m, 'i> {
    /// One of the five.
    #[non_exhaustive]
    Accepted {
        /// Its parts.
        payload: Payload<'m>,
        /// Its extension; the starts in its rows count from the message's first byte.
        extension: Reading<'m, 'i>,
    },
    /// An unknown odd type.
    PassedOver(u64),
}

/// Reads a message, and its extension's rows into an index; twice as many numbers as the message has bytes always suffice. Refused: 21, 20, 22,
/// the extension's 1 to 11, 12. Of an extension that is cut short (1, 4, 6) it is told how many bytes are missing, of a payload (20) not.
///
/// ```
/// use tockplover::message::{read, Message, Payload};
/// let ping = [0, 18, 0, 4, 0, 2, 0, 0];
/// let Message::Accepted { payload, extension, .. } = read(&ping, &mut [])? else { panic!() };
/// assert_eq!(payload, Payload::Ping { wanted: 4, filler: &[0, 0] });
/// assert_eq!(extension.counts().records, 0);
/// assert_eq!(read(&[0, 21], &mut [])?, Message::PassedOver(21));
/// # Ok::<(), tockplover::Refusal>(())
/// ```
pub fn read<'m, 'i>(message: &'m [u8], index: &'i mut [u64]) -> Result<Message<'m, 'i>, Refusal> {
    let answer = raw::message_read(message, index);
    raw::accepted(answer.refusal)?;
    if answer.outcome == raw::NONE {
        return Ok(Message::PassedOver(answer.kind));
    }
    let first = &message[answer.first.start..][..answer.first.size];
    let last = &message[answer.last.start..][..answer.last.size];
    let payload = match answer.kind {
        16 => Payload::Init {
            globalfeatures: first,
            features: last,
        },
        17 => Payload::Error {
            channel: first,
            content: last,
        },
        1 => Payload::Warning {
            channel: first,
            content: last,
        },
        // the count has two bytes in the message
        18 => Payload::Ping {
            wanted: answer.wanted as u16,
            filler: last,
        },
        _ => Payload::Pong { filler: last },
    };
    Ok(Message::Accepted {
        payload,
        extension: Reading::new(message, &index[..4 * answer.records], answer.known),
    })
}

/// The address of an init, a part of the message: the value of its record 3, for [`address::read`](crate::address::read). Refused: as [`read`],
/// but never 12; then 15 where there is none, as in every other message.
///
/// ```
/// use tockplover::{address, message, numbers};
/// let init = [0, 16, 0, 0, 0, 0, 3, 7, 1, 127, 0, 0, 1, 0x26, 0x07];
/// let value = message::address(&init)?;
/// assert_eq!(address::read(value)?.to_string(), "IPv4 127.0.0.1:9735");
/// assert_eq!(message::address(&init[..6]).unwrap_err().number, numbers::TYPE_ABSENT);
/// # Ok::<(), tockplover::Refusal>(())
/// ```
pub fn address(message: &[u8]) -> Result<&[u8], Refusal> {
    let answer = raw::message_address(message);
    raw::accepted(answer.refusal)?;
    Ok(&message[answer.start..][..answer.size])
}

/// Writes a message with an extension of triples (type, start, length) over source bytes, as in [`stream::write`](crate::stream::write).
/// Refused: 20 for a channel that is not 32 bytes, the extension's refusals, 21, 12.
///
/// ```
/// use tockplover::message::{write, Payload};
/// let init = Payload::Init { globalfeatures: &[], features: &[2] };
/// let address = [1, 127, 0, 0, 1, 0x26, 0x07];
/// let mut out = [0; 32];
/// assert_eq!(write(init, &[3, 0, 7], &address, &mut out)?, [0, 16, 0, 0, 0, 1, 2, 3, 7, 1, 127, 0, 0, 1, 0x26, 0x07]);
/// # Ok::<(), tockplover::Refusal>(())
/// ```
pub fn write<'o>(payload: Payload, triples: &[u64], source: &[u8], out: &'o mut [u8]) -> Result<&'o [u8], Refusal> {
    let (kind, first, last, wanted) = match payload {
        Payload::Init { globalfeatures, features } => (16, globalfeatures, features, 0),
        Payload::Error { channel, content } => (17, channel, content, 0),
        Payload::Warning { channel, content } => (1, channel, content, 0),
        Payload::Ping { wanted, filler } => (18, &[][..], filler, wanted),
        Payload::Pong { filler } => (19, &[][..], filler, 0),
    };
    raw::written(raw::message_write(kind, first, last, wanted, triples, source, out), out)
}

/// The group that a message type belongs to: 1 for 0 to 31, 2 to 127, 3 to 255, 4 to 511, 5 for 32,768 and up, otherwise 0.
///
/// ```
/// assert_eq!(tockplover::message::group(18), 1);
/// ```
pub fn group(kind: u64) -> u64 {
    raw::message_group(kind)
}

/// Joins the two feature maps of an init by OR, aligned at their last bytes; the output needs as many bytes as the longer has. Refused: 12.
///
/// ```
/// let mut out = [0; 2];
/// assert_eq!(tockplover::message::join_features(&[1, 0x80], &[3], &mut out)?, [1, 0x83]);
/// # Ok::<(), tockplover::Refusal>(())
/// ```
pub fn join_features<'o>(a: &[u8], b: &[u8], out: &'o mut [u8]) -> Result<&'o [u8], Refusal> {
    raw::written(raw::message_join_features(a, b, out), out)
}

/// Writes the pong for a ping that wants so many bytes; none where it wants 65,532 or more. Refused: 12.
///
/// ```
/// let mut out = [0; 8];
/// assert_eq!(tockplover::message::pong(2, &mut out)?, Some(&[0, 19, 0, 2, 0, 0][..]));
/// assert_eq!(tockplover::message::pong(65_532, &mut out)?, None);
/// # Ok::<(), tockplover::Refusal>(())
/// ```
pub fn pong(wanted: u64, out: &mut [u8]) -> Result<Option<&[u8]>, Refusal> {
    let answer = raw::message_pong(wanted, out);
    raw::accepted(answer.refusal)?;
    if answer.outcome == raw::NONE {
        return Ok(None);
    }
    Ok(Some(&out[..answer.size]))
}

//! The messages init, error, warning, ping and pong: two type bytes, a payload and an extension stream.

use crate::output::Output;
use crate::refusal::{ensure, MESSAGE_CUT, MESSAGE_TOO_LONG, NO_ROOM, TYPE_ABSENT, UNKNOWN_MESSAGE};
use crate::stream::{self, Counts, Stream};
use crate::{table, Part, Refusal};

/// Type of a warning.
pub const WARNING: u16 = 1;
/// Type of an init.
pub const INIT: u16 = 16;
/// Type of an error.
pub const ERROR: u16 = 17;
/// Type of a ping.
pub const PING: u16 = 18;
/// Type of a pong.
pub const PONG: u16 = 19;

/// The most bytes of a message.
pub const LONGEST: usize = 65_535;

/// The bytes of a channel.
pub const CHANNEL: usize = 32;

/// Type of init's networks.
pub const NETWORKS: u64 = 1;
/// Type of init's remote_addr.
pub const REMOTE_ADDR: u64 = 3;

/// The built-in table: init's networks and remote_addr, in namespace 0.
pub const BUILT_IN: [u64; 8] = [0, NETWORKS, table::ITEMS, 32, 0, REMOTE_ADDR, table::ADDRESS, 0];

/// The least wanted count that gets no pong.
pub const NO_PONG: u64 = 65_532;

/// Where a message's extension lies and how many records it has.
#[derive(Clone, Copy, Debug, PartialEq, Eq)]
pub struct Extension {
    /// Start and length.
    pub part: Part,
    /// Records, and those known.
    pub counts: Counts,
}

/// A message that was read; starts count from its first byte.
#[derive(Clone, Copy, Debug, PartialEq, Eq)]
pub enum Message {
    /// Type 16.
    Init {
        /// The older of the two feature maps.
        globalfeatures: Part,
        /// The newer one.
        features: Part,
        /// The extension.
        extension: Extension,
    },
    /// Type 17.
    Error {
        /// 32 bytes.
        channel: Part,
        /// What is wrong.
        data: Part,
        /// The extension.
        extension: Extension,
    },
    /// Type 1.
    Warning {
        /// 32 bytes.
        channel: Part,
        /// What may be wrong.
        data: Part,
        /// The extension.
        extension: Extension,
    },
    /// Type 18.
    Ping {
        /// How many bytes the pong shall have.
        wanted: u16,
        /// Bytes without meaning.
        filler: Part,
        /// The extension.
        extension: Extension,
    },
    /// Type 19.
    Pong {
        /// Bytes without meaning.
        filler: Part,
        /// The extension.
        extension: Extension,
    },
    /// An unknown odd type, which is neither judged nor refused.
    PassedOver {
        /// The type.
        kind: u16,
    },
}

impl Message {
    /// The message's type.
    pub fn kind(&self) -> u16 {
        match *self {
            Message::Init { .. } => INIT,
            Message::Error { .. } => ERROR,
            Message::Warning { .. } => WARNING,
            Message::Ping { .. } => PING,
            Message::Pong { .. } => PONG,
            Message::PassedOver { kind } => kind,
        }
    }

    /// The extension, unless the message is passed over.
    pub fn extension(&self) -> Option<Extension> {
        match *self {
            Message::Init { extension, .. }
            | Message::Error { extension, .. }
            | Message::Warning { extension, .. }
            | Message::Ping { extension, .. }
            | Message::Pong { extension, .. } => Some(extension),
            Message::PassedOver { .. } => None,
        }
    }
}

/// The namespace of a type's extension: init's own, or one without rows.
pub(crate) fn namespace_of(kind: u16) -> u64 {
    u64::from(kind != INIT)
}

/// The payload, taken part by part; `None` where it is cut.
struct Payload<'a> {
    message: &'a [u8],
    at: usize,
}

impl Payload<'_> {
    fn part(&mut self, length: usize) -> Option<Part> {
        let part = Part { start: self.at, length };
        self.at = part.end();
        (self.at <= self.message.len()).then_some(part)
    }

    fn u16(&mut self) -> Option<u16> {
        let part = self.part(2)?;
        Some(u16::from_be_bytes([self.message[part.start], self.message[part.start + 1]]))
    }

    fn counted(&mut self) -> Option<Part> {
        let length = self.u16()?;
        self.part(length.into())
    }
}

/// The extension behind the payload, not yet judged.
fn extension_in(message: &[u8], begin: usize, kind: u16) -> Stream<'_> {
    Stream { rows: table::rows(&BUILT_IN), namespace: namespace_of(kind), bytes: message, begin }
}

/// Judges a message without an index: 21, 20, 22, then the extension.
pub fn judge(message: &[u8]) -> Result<Message, Refusal> {
    ensure(message.len() <= LONGEST, Refusal::bare(MESSAGE_TOO_LONG))?;
    let mut payload = Payload { message, at: 0 };
    let kind = payload.u16().ok_or(Refusal::bare(MESSAGE_CUT))?;
    let cut = Refusal::at(MESSAGE_CUT, 0, kind.into());
    let extension = |begin: usize| -> Result<Extension, Refusal> {
        let part = Part { start: begin, length: message.len() - begin };
        Ok(Extension { part, counts: stream::tally(&extension_in(message, begin, kind))? })
    };
    match kind {
        INIT => {
            let globalfeatures = payload.counted().ok_or(cut)?;
            let features = payload.counted().ok_or(cut)?;
            Ok(Message::Init { globalfeatures, features, extension: extension(payload.at)? })
        }
        ERROR | WARNING => {
            let channel = payload.part(CHANNEL).ok_or(cut)?;
            let data = payload.counted().ok_or(cut)?;
            let extension = extension(payload.at)?;
            Ok(match kind {
                ERROR => Message::Error { channel, data, extension },
                _ => Message::Warning { channel, data, extension },
            })
        }
        PING => {
            let wanted = payload.u16().ok_or(cut)?;
            let filler = payload.counted().ok_or(cut)?;
            Ok(Message::Ping { wanted, filler, extension: extension(payload.at)? })
        }
        PONG => {
            let filler = payload.counted().ok_or(cut)?;
            Ok(Message::Pong { filler, extension: extension(payload.at)? })
        }
        _ if kind % 2 == 1 => Ok(Message::PassedOver { kind }),
        _ => Err(Refusal::at(UNKNOWN_MESSAGE, 0, kind.into())),
    }
}

/// Reads a message: its parts, and its extension's rows at the front of the index.
pub fn read(message: &[u8], index: &mut [u64]) -> Result<Message, Refusal> {
    let answer = judge(message)?;
    if let Some(extension) = answer.extension() {
        stream::ensure_room(index, extension.counts.records)?;
        stream::fill(&extension_in(message, extension.part.start, answer.kind()), index);
    }
    Ok(answer)
}

/// Where the value of an accepted init's record 3 lies; `None` without one, and for every other message.
pub(crate) fn address_in(message: &[u8], judged: &Message) -> Option<Part> {
    let Message::Init { extension, .. } = judged else {
        return None;
    };
    // Types rise, so that at most one stands before it.
    let mut records = stream::records(&extension_in(message, extension.part.start, INIT));
    let found = records.find(|record| record.kind >= REMOTE_ADDR)?;
    (found.kind == REMOTE_ADDR).then_some(found.value)
}

/// Where an init's address lies; the message's refusal comes before 15.
pub fn address(message: &[u8]) -> Result<Part, Refusal> {
    let judged = judge(message)?;
    address_in(message, &judged).ok_or(Refusal::at(TYPE_ABSENT, 0, REMOTE_ADDR))
}

/// The group of a message type, 1 to 5, or 0.
pub fn group(kind: u64) -> u8 {
    match kind {
        0..=31 => 1,
        32..=127 => 2,
        128..=255 => 3,
        256..=511 => 4,
        512..=32_767 => 0,
        _ => 5,
    }
}

/// Joins two feature maps by OR, aligned at their last bytes, and gives the length of the longer.
pub fn join_features(a: &[u8], b: &[u8], out: &mut [u8]) -> Result<usize, Refusal> {
    let (long, short) = if a.len() < b.len() { (b, a) } else { (a, b) };
    let out = out.get_mut(..long.len()).ok_or(Refusal::bare(NO_ROOM))?;
    out.copy_from_slice(long);
    for (joined, byte) in out[long.len() - short.len()..].iter_mut().zip(short) {
        *joined |= byte;
    }
    Ok(long.len())
}

/// Writes the pong for a ping that wants so many bytes and gives its length; `None` where it gets no pong.
pub fn pong(wanted: u64, out: &mut [u8]) -> Result<Option<usize>, Refusal> {
    if wanted >= NO_PONG {
        return Ok(None);
    }
    let length = 4 + wanted as usize;
    let mut output = Output::new(out.get_mut(..length).ok_or(Refusal::bare(NO_ROOM))?);
    output.u16(PONG);
    output.u16(wanted as u16);
    output.take(wanted as usize).fill(0);
    Ok(Some(length))
}

#[cfg(test)]
mod tests {
    use super::*;

    #[test]
    fn the_built_in_table_is_accepted() {
        assert_eq!(table::check(&BUILT_IN), Ok(()));
    }

    #[test]
    fn groups_at_their_limits() {
        let limits = [(0, 1), (31, 1), (32, 2), (127, 2), (128, 3), (255, 3), (256, 4), (511, 4), (512, 0)];
        let far = [(32_767, 0), (32_768, 5), (65_535, 5), (u64::MAX, 5)];
        assert!(limits.into_iter().chain(far).all(|(kind, expected)| group(kind) == expected));
    }

    #[test]
    fn features_are_joined_at_their_last_bytes() {
        let mut out = [0xa5; 4];
        assert_eq!(join_features(&[1], &[0x80, 0, 2], &mut out), Ok(3));
        assert_eq!(out, [0x80, 0, 3, 0xa5]);
        assert_eq!(join_features(&[], &[], &mut []), Ok(0));
        assert_eq!(join_features(&[1, 2], &[], &mut out[..1]), Err(Refusal::bare(12)));
    }

    #[test]
    fn pongs() {
        let mut out = [0xa5; 8];
        assert_eq!(pong(3, &mut out), Ok(Some(7)));
        assert_eq!(out, [0, 19, 0, 3, 0, 0, 0, 0xa5]);
        assert_eq!(pong(5, &mut out), Err(Refusal::bare(12)));
        assert_eq!(pong(65_532, &mut []), Ok(None));
        assert_eq!(pong(65_531, &mut []), Err(Refusal::bare(12)));
        assert_eq!(pong(u64::MAX, &mut out), Ok(None));
    }

    #[test]
    fn a_message_is_measured_first() {
        assert_eq!(judge(&vec![0; LONGEST + 1]), Err(Refusal::bare(21)));
        let mut message = vec![0; LONGEST];
        message[1] = 21;
        assert_eq!(judge(&message), Ok(Message::PassedOver { kind: 21 }));
        assert_eq!(read(&[0, 19, 0, 0, 1, 0], &mut [0; 3]), Err(Refusal::bare(12)));
        // Only init knows its two types.
        assert_eq!(judge(&[0, 19, 0, 0, 1, 1, 0]).map(|m| m.kind()), Ok(PONG));
        assert_eq!(judge(&[0, 16, 0, 0, 0, 0, 1, 1, 0]), Err(Refusal::at(8, 6, 1)));
    }
}

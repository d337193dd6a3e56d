//! `tockplover message`: one setup or control message.
use std::ffi::OsString;

use tockplover::message::{self, Message, Payload};

use crate::address;
use crate::answer::{answer, Answer, Item, Stop};
use crate::call::{Call, Takes};
use crate::fault::Fault;
use crate::form;
use crate::hex;
use crate::json::Json;
use crate::record::{no_names, Records};
use crate::refused::Refused;
use crate::shown::{self, count};

/// The rows of init's extension, which stand in the message reader's own table; the other messages have none.
const INIT_ROWS: [u64; 8] = [0, 1, form::ITEMS, 32, 0, 3, form::ADDRESS, 0];

/// The names of init's rows.
fn init_names(kind: u64) -> Option<&'static str> {
    match kind {
        1 => Some("networks"),
        3 => Some("remote_addr"),
        _ => None,
    }
}

/// A part of a message.
enum Part {
    /// Features.
    Features(&'static str, Vec<u8>),
    /// The descriptor of an init's address, where it has one.
    Address(Option<Vec<u8>>),
    /// The channel that an error or a warning is about.
    Channel(Vec<u8>),
    /// What an error or a warning says.
    Data(Vec<u8>),
    /// How many pong bytes a ping wants, and whether a pong is due.
    Wanted(u16, bool),
    /// How many bytes without a meaning there are.
    Filler(usize),
}

/// One of the five messages, or an unknown odd one.
struct MessageItem {
    kind: u64,
    /// None for a message that is passed over.
    known: Option<Known>,
}

/// One of the five messages.
struct Known {
    name: &'static str,
    parts: Vec<Part>,
    extension: Records,
}

/// The channel of an error or a warning, and what it says.
fn channel_parts(channel: &[u8], content: &[u8]) -> Vec<Part> {
    vec![Part::Channel(channel.to_vec()), Part::Data(content.to_vec())]
}

/// The two feature maps of an init, both joined, and its address.
fn init_parts(globalfeatures: &[u8], features: &[u8], address: Option<&[u8]>) -> Vec<Part> {
    let mut joined = vec![0; globalfeatures.len().max(features.len())];
    message::join_features(globalfeatures, features, &mut joined).expect("there is room for the longer map");
    vec![
        Part::Features("globalfeatures", globalfeatures.to_vec()),
        Part::Features("features", features.to_vec()),
        Part::Features("joined_features", joined),
        Part::Address(address.map(<[u8]>::to_vec)),
    ]
}

/// Whether a ping that wants so many bytes gets a pong.
fn is_pong_due(wanted: u16) -> bool {
    let pong = message::pong(wanted.into(), &mut [0; message::MOST]).map(|pong| pong.is_some());
    pong.expect("there is room for the longest pong")
}

/// The type, the name and the parts of a payload; an init may have an address.
fn payload_parts(payload: Payload, address: Option<&[u8]>) -> (u64, &'static str, Vec<Part>) {
    match payload {
        Payload::Init { globalfeatures, features } => (16, "init", init_parts(globalfeatures, features, address)),
        Payload::Error { channel, content } => (17, "error", channel_parts(channel, content)),
        Payload::Warning { channel, content } => (1, "warning", channel_parts(channel, content)),
        Payload::Ping { wanted, filler } => {
            let wanted = Part::Wanted(wanted, is_pong_due(wanted));
            (18, "ping", vec![wanted, Part::Filler(filler.len())])
        }
        Payload::Pong { filler } => (19, "pong", vec![Part::Filler(filler.len())]),
    }
}

/// Bytes as text, where all of them are printable ASCII; BOLT 1 asks that others are not printed as they are.
fn printable(bytes: &[u8]) -> Option<&str> {
    let text = std::str::from_utf8(bytes).ok()?;
    bytes.iter().all(|byte| (32..=126).contains(byte)).then_some(text)
}

impl Part {
    /// The part's line; none for an address that is not there.
    fn line(&self) -> String {
        match self {
            Part::Features(name, bytes) => format!("{}: {}\n", name.replace('_', " "), hex::words(bytes)),
            Part::Address(Some(value)) => format!("address: {}\n", address::words(value)),
            Part::Address(None) => String::new(),
            // by BOLT 1 a channel of zeros stands for all
            Part::Channel(bytes) if bytes.iter().all(|&byte| byte == 0) => format!("channel: {}, all channels\n", hex::digits(bytes)),
            Part::Channel(bytes) => format!("channel: {}\n", hex::digits(bytes)),
            Part::Data(bytes) => match printable(bytes) {
                Some("") => "data: empty\n".to_string(),
                Some(text) => format!("data: {}\n", shown::text(text)),
                None => format!("data, not printable: {}\n", hex::digits(bytes)),
            },
            Part::Wanted(wanted, true) => format!("wanted pong bytes: {wanted}, a pong is due\n"),
            Part::Wanted(wanted, false) => format!("wanted pong bytes: {wanted}, no pong is due\n"),
            Part::Filler(size) => format!("filler: {}\n", count(*size as u64, "byte")),
        }
    }

    /// What the message's object has for the part.
    fn pairs(&self) -> Vec<(&'static str, Json)> {
        match self {
            Part::Features(name, bytes) => vec![(name, Json::hex(bytes))],
            Part::Address(value) => vec![("address", value.as_deref().map_or(Json::Null, address::json))],
            Part::Channel(bytes) => vec![("channel", Json::hex(bytes))],
            Part::Data(bytes) => vec![("data", Json::hex(bytes)), ("text", Json::text(printable(bytes)))],
            Part::Wanted(wanted, due) => vec![("wanted", Json::Number((*wanted).into())), ("pong_due", Json::Bool(*due))],
            Part::Filler(size) => vec![("filler", Json::count(*size))],
        }
    }
}

impl Item for MessageItem {
    fn lines(&self) -> String {
        let Some(known) = &self.known else {
            return format!("message type {}: unknown and odd, passed over\n", self.kind);
        };
        let parts: String = known.parts.iter().map(Part::line).collect();
        let (words, records) = (known.extension.words(), known.extension.lines(0));
        format!("message type {}: {}\n{parts}extension: {words}\n{records}", self.kind, known.name)
    }

    fn json(&self) -> Json {
        let mut pairs = vec![
            ("type", Json::Number(self.kind)),
            ("name", Json::text(self.known.as_ref().map(|known| known.name))),
            ("passed_over", Json::Bool(self.known.is_none())),
        ];
        if let Some(known) = &self.known {
            pairs.extend(known.parts.iter().flat_map(Part::pairs));
            pairs.push(("extension", Json::Object(known.extension.pairs().into())));
        }
        Json::Object(pairs)
    }
}

/// What is shown of a message, and of its address where it has one.
fn item(read: Message, address: Option<&[u8]>) -> MessageItem {
    let (payload, extension) = match read {
        Message::Accepted { payload, extension, .. } => (payload, extension),
        Message::PassedOver(kind) => return MessageItem { kind, known: None },
    };
    let extension = match payload {
        Payload::Init { .. } => Records::of(&INIT_ROWS, 0, &extension, init_names),
        _ => Records::of(&[], 0, &extension, no_names),
    };
    let (kind, name, parts) = payload_parts(payload, address);
    let known = Some(Known { name, parts, extension });
    MessageItem { kind, known }
}

/// Reads the message of a call.
fn ask(call: &Call) -> Result<MessageItem, Stop> {
    let bytes = hex::from_call("message", call)?;
    let mut index = vec![0; 2 * bytes.len()];
    let read = message::read(&bytes, &mut index).map_err(|refusal| Refused::of_message(refusal, &bytes))?;
    Ok(item(read, message::address(&bytes).ok()))
}

/// Runs the command.
pub fn run(words: impl Iterator<Item = OsString>) -> Result<Answer, Fault> {
    let call = Call::read("message", &[Takes::Json], words)?;
    answer(ask(&call), call.json)
}

#[cfg(test)]
mod tests {
    use super::*;

    #[test]
    fn only_printable_data_is_text() {
        assert_eq!(printable(b" ~"), Some(" ~"));
        for byte in [0, 10, 31, 127, 128, 255] {
            assert_eq!(printable(&[b'a', byte]), None);
        }
        assert_eq!(printable("é".as_bytes()), None);
        assert_eq!(Part::Data(Vec::new()).line(), "data: empty\n");
        assert_eq!(Part::Data(b"a\"b\\".to_vec()).line(), "data: \"a\\\"b\\\\\"\n");
    }
}

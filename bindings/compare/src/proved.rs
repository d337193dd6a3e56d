//! The proved side by the Rust crate, asked as `tockplover_reference` is: the same modules, functions and answers.

use tockplover_reference as reference;

fn refused(refusal: tockplover::Refusal) -> reference::Refusal {
    let tockplover::Refusal { number, place, kind, missing, .. } = refusal;
    reference::Refusal { number, place, kind, missing }
}

/// How much was written.
fn size<T>(answer: Result<&[T], tockplover::Refusal>) -> Result<usize, reference::Refusal> {
    answer.map(<[T]>::len).map_err(refused)
}

/// Where a part of the lent bytes lies.
fn part(whole: &[u8], part: &[u8]) -> reference::Part {
    reference::Part { start: part.as_ptr() as usize - whole.as_ptr() as usize, length: part.len() }
}

/// BigSize.
pub mod bigsize {
    use super::{refused, size};
    use tockplover_reference::bigsize::BigSize;
    use tockplover_reference::Refusal;

    /// Reads the BigSize at the front of the bytes.
    pub fn read(bytes: &[u8]) -> Result<BigSize, Refusal> {
        let read = tockplover::bigsize::read(bytes).map_err(refused)?;
        Ok(BigSize { value: read.value, width: read.width })
    }

    /// Writes the shortest form.
    pub fn write(value: u64, out: &mut [u8]) -> Result<usize, Refusal> {
        size(tockplover::bigsize::write(value, out))
    }
}

/// The table of known types.
pub mod table {
    use super::refused;
    use tockplover_reference::table::Extension;
    use tockplover_reference::Refusal;

    /// Judges a table.
    pub fn check(table: &[u64]) -> Result<(), Refusal> {
        tockplover::table::check(table).map_err(refused)
    }

    /// Compares an older table with a newer one.
    pub fn extends(older: &[u64], newer: &[u64]) -> Extension {
        match tockplover::table::extends(older, newer) {
            tockplover::table::Extension::Extends => Extension::Extends,
            tockplover::table::Extension::Lacks(row) => Extension::Lacks(row),
            tockplover::table::Extension::OlderRefused(refusal) => Extension::OlderRefused(refused(refusal)),
            tockplover::table::Extension::NewerRefused(refusal) => Extension::NewerRefused(refused(refusal)),
        }
    }
}

/// Record streams.
pub mod stream {
    use super::{part, refused};
    use tockplover_reference::refusal::TYPE_ABSENT;
    use tockplover_reference::stream::Counts;
    use tockplover_reference::{Part, Refusal};

    pub(super) fn counts(counts: tockplover::stream::Counts) -> Counts {
        Counts { records: counts.records, known: counts.known }
    }

    /// Counts the outer records.
    pub fn count(table: &[u64], namespace: u64, stream: &[u8]) -> Result<Counts, Refusal> {
        tockplover::stream::count(table, namespace, stream).map(counts).map_err(refused)
    }

    /// Reads a stream into an index.
    pub fn read(table: &[u64], namespace: u64, stream: &[u8], index: &mut [u64]) -> Result<Counts, Refusal> {
        let read = tockplover::stream::read(table, namespace, stream, index).map_err(refused)?;
        Ok(counts(read.counts()))
    }

    /// The crate's no, which is no refusal there.
    fn absent(kind: u64) -> Refusal {
        Refusal::at(TYPE_ABSENT, 0, kind)
    }

    /// Whether a type is among the outer records.
    pub fn contains(table: &[u64], namespace: u64, stream: &[u8], kind: u64) -> Result<(), Refusal> {
        let contains = tockplover::stream::contains(table, namespace, stream, kind).map_err(refused)?;
        contains.then_some(()).ok_or(absent(kind))
    }

    /// Where the value of a type lies.
    pub fn locate(table: &[u64], namespace: u64, stream: &[u8], kind: u64) -> Result<Part, Refusal> {
        let value = tockplover::stream::value(table, namespace, stream, kind).map_err(refused)?;
        value.map(|value| part(stream, value)).ok_or(absent(kind))
    }
}

/// The stream writer.
pub mod stream_writer {
    use super::size;
    use tockplover_reference::Refusal;

    /// Writes the stream that the triples make.
    pub fn write(
        table: &[u64],
        namespace: u64,
        triples: &[u64],
        source: &[u8],
        out: &mut [u8],
    ) -> Result<usize, Refusal> {
        size(tockplover::stream::write(table, namespace, triples, source, out))
    }
}

/// Address descriptors.
pub mod address {
    use super::{part, refused, size};
    use tockplover_reference::address::Descriptor;
    use tockplover_reference::Refusal;

    /// Reads a descriptor.
    pub fn read(value: &[u8]) -> Result<Descriptor, Refusal> {
        let read = tockplover::address::read(value).map_err(refused)?;
        Ok(Descriptor { kind: read.kind, rest: part(value, read.rest) })
    }

    /// Writes a descriptor.
    pub fn write(kind: u8, rest: &[u8], out: &mut [u8]) -> Result<usize, Refusal> {
        size(tockplover::address::write(kind, rest, out))
    }
}

/// Messages.
pub mod message {
    use super::{part, refused, size, stream};
    use tockplover::message::Payload;
    use tockplover_reference::message::{Extension, Message};
    use tockplover_reference::{Part, Refusal};

    /// Reads a message.
    pub fn read(message: &[u8], index: &mut [u64]) -> Result<Message, Refusal> {
        let (payload, extension) = match tockplover::message::read(message, index).map_err(refused)? {
            tockplover::message::Message::Accepted { payload, extension, .. } => (payload, extension),
            tockplover::message::Message::PassedOver(kind) => {
                return Ok(Message::PassedOver { kind: kind.try_into().expect("a message type") });
            }
        };
        let counts = stream::counts(extension.counts());
        let at = |bytes| part(message, bytes);
        // The crate tells no place of the extension: it is all that stands behind the last part.
        let behind = |last: Part| {
            let part = Part { start: last.end(), length: message.len() - last.end() };
            Extension { part, counts }
        };
        Ok(match payload {
            Payload::Init { globalfeatures, features } => {
                let features = at(features);
                Message::Init { globalfeatures: at(globalfeatures), features, extension: behind(features) }
            }
            Payload::Error { channel, content } => {
                let data = at(content);
                Message::Error { channel: at(channel), data, extension: behind(data) }
            }
            Payload::Warning { channel, content } => {
                let data = at(content);
                Message::Warning { channel: at(channel), data, extension: behind(data) }
            }
            Payload::Ping { wanted, filler } => {
                let filler = at(filler);
                Message::Ping { wanted, filler, extension: behind(filler) }
            }
            Payload::Pong { filler } => {
                let filler = at(filler);
                Message::Pong { filler, extension: behind(filler) }
            }
        })
    }

    /// Where an init's address lies.
    pub fn address(message: &[u8]) -> Result<Part, Refusal> {
        let address = tockplover::message::address(message).map_err(refused)?;
        Ok(part(message, address))
    }

    /// The group of a message type.
    pub fn group(kind: u64) -> u8 {
        tockplover::message::group(kind).try_into().expect("a group")
    }

    /// Joins two feature maps.
    pub fn join_features(a: &[u8], b: &[u8], out: &mut [u8]) -> Result<usize, Refusal> {
        size(tockplover::message::join_features(a, b, out))
    }

    /// Writes the pong for a ping.
    pub fn pong(wanted: u64, out: &mut [u8]) -> Result<Option<usize>, Refusal> {
        let pong = tockplover::message::pong(wanted, out).map_err(refused)?;
        Ok(pong.map(<[u8]>::len))
    }
}

/// The message writer.
pub mod message_writer {
    use super::size;
    use tockplover::message::Payload;
    use tockplover_reference::Refusal;

    /// Writes a message; the type is one of the five.
    pub fn write(
        kind: u64,
        first: &[u8],
        last: &[u8],
        wanted: u16,
        triples: &[u64],
        source: &[u8],
        out: &mut [u8],
    ) -> Result<usize, Refusal> {
        let payload = match kind {
            16 => Payload::Init { globalfeatures: first, features: last },
            17 => Payload::Error { channel: first, content: last },
            1 => Payload::Warning { channel: first, content: last },
            18 => Payload::Ping { wanted, filler: last },
            19 => Payload::Pong { filler: last },
            _ => panic!("the crate has no message of type {kind}"),
        };
        size(tockplover::message::write(payload, triples, source, out))
    }
}

/// Invoices.
pub mod invoice {
    use super::{part, refused, size};
    use tockplover::invoice::Field;
    use tockplover_reference::invoice::{Hop, Invoice};
    use tockplover_reference::money::Msat;
    use tockplover_reference::Refusal;

    /// Reads an invoice.
    pub fn read(text: &[u8], groups: &mut [u8], index: &mut [u64]) -> Result<Invoice, Refusal> {
        let read = tockplover::invoice::read(text, groups, index).map_err(refused)?;
        Ok(Invoice {
            prefix: read.prefix as u8,
            amount: part(text, read.amount),
            msat: read.msat.map(|msat| Msat(msat.0)),
            time: read.time,
            groups: read.groups().len(),
            fields: read.fields().size_hint().0,
            payment: read.payment,
            expiry: read.expiry,
            delta: read.delta,
        })
    }

    /// A field; its type is not asked for.
    fn field(start: u64, size: u64) -> Field {
        Field::new(0, start, size)
    }

    /// Writes the whole bytes of a field.
    pub fn field_bytes(groups: &[u8], start: u64, count: u64, out: &mut [u8]) -> Result<usize, Refusal> {
        size(tockplover::invoice::field_bytes(groups, field(start, count), out))
    }

    /// The number that a field spells.
    pub fn field_number(groups: &[u8], start: u64, size: u64) -> Result<u64, Refusal> {
        tockplover::invoice::field_number(groups, field(start, size)).map_err(refused)
    }

    /// How many entries a route has.
    pub fn route_size(groups: &[u8], kind: u64, start: u64, size: u64) -> Result<usize, Refusal> {
        let entries = tockplover::invoice::route_size(groups, Field::new(kind, start, size)).map_err(refused)?;
        Ok(entries.try_into().expect("a count"))
    }

    /// Entry `k` of a route; the crate has a key of its own, which the lent one takes over.
    pub fn route_entry(
        groups: &[u8],
        kind: u64,
        start: u64,
        size: u64,
        k: u64,
        key: &mut [u8],
    ) -> Result<Option<Hop>, Refusal> {
        let entry = tockplover::invoice::route_entry(groups, Field::new(kind, start, size), k).map_err(refused)?;
        Ok(entry.map(|entry| {
            key[..entry.key.len()].copy_from_slice(&entry.key);
            Hop { channel: entry.channel, fee: entry.fee, delta: entry.delta }
        }))
    }
}

/// The invoice writer.
pub mod invoice_writer {
    use super::size;
    use tockplover::invoice::Prefix;
    use tockplover_reference::Refusal;

    /// Writes an invoice's text; the prefix is 1 or 2.
    pub fn write(
        prefix: u64,
        amount: &[u8],
        time: u64,
        fields: &[u8],
        signature: &[u8],
        out: &mut [u8],
    ) -> Result<usize, Refusal> {
        let prefix = match prefix {
            1 => Prefix::Lnbc,
            2 => Prefix::Lntb,
            _ => panic!("the crate has no prefix {prefix}"),
        };
        size(tockplover::invoice::write(prefix, amount, time, fields, signature, out))
    }
}

/// The till profile.
pub mod till {
    use super::refused;
    use tockplover_reference::till::Profile;
    use tockplover_reference::Refusal;

    /// The rules that an invoice breaks.
    pub fn profile(text: &[u8]) -> Result<Profile, Refusal> {
        let broken = tockplover::till::profile(text).map_err(refused)?;
        let mut profile = Profile::default();
        for rule in broken.rules() {
            profile.rules[profile.count] = rule.number();
            profile.count += 1;
        }
        Ok(profile)
    }
}

/// Fields made.
pub mod field {
    use super::size;
    use tockplover_reference::Refusal;

    /// Makes a field of bytes; the type is below 256.
    pub fn from_bytes(kind: u64, bytes: &[u8], out: &mut [u8]) -> Result<usize, Refusal> {
        size(tockplover::invoice::field_from_bytes(kind.try_into().expect("a type below 256"), bytes, out))
    }

    /// Makes a field of a number; the type is below 256.
    pub fn from_number(kind: u64, number: u64, out: &mut [u8]) -> Result<usize, Refusal> {
        size(tockplover::invoice::field_from_number(kind.try_into().expect("a type below 256"), number, out))
    }
}

/// Money.
pub mod money {
    use super::refused;
    use tockplover_reference::money::{Msat, Sat};
    use tockplover_reference::Refusal;

    /// The same amount in satoshis.
    pub fn to_sat(amount: Msat) -> Result<Sat, Refusal> {
        let sat = tockplover::money::to_sat(tockplover::money::Msat(amount.0)).map_err(refused)?;
        Ok(Sat(sat.0))
    }
}

/// The recording book.
pub mod book {
    use super::size;
    use tockplover_reference::Refusal;

    /// Writes the report on a book.
    pub fn report(book: &[u8], out: &mut [u8]) -> Result<usize, Refusal> {
        size(tockplover::book::report(book, out))
    }
}

/// Month-end figures.
pub mod month {
    use super::{refused, size};
    use tockplover::month::Figures;
    use tockplover_reference::Refusal;

    pub use tockplover::month::satoshi;

    /// The figures before the first book.
    pub fn empty() -> Figures {
        Figures::empty()
    }

    /// Adds a book to the figures.
    pub fn add(figures: Figures, book: &[u8]) -> (Figures, Result<(), Refusal>) {
        let (figures, answer) = figures.add(book);
        (figures, answer.map_err(refused))
    }

    /// Writes a number's decimal digits.
    pub fn decimal(number: u128, out: &mut [u8]) -> Result<usize, Refusal> {
        size(tockplover::month::decimal(number, out))
    }
}

/// The mender.
pub mod mender {
    use super::refused;
    use tockplover_reference::mender::{Changes, Mended};
    use tockplover_reference::Refusal;

    /// Mends a stream.
    pub fn mend(stream: &[u8], out: &mut [u8]) -> Result<Mended, Refusal> {
        let mended = tockplover::mender::mend(stream, out).map_err(refused)?;
        let tockplover::mender::Changes { moved, dropped, respelled, cut, .. } = mended.changes;
        Ok(Mended { length: mended.stream.len(), changes: Changes { moved, dropped, respelled, cut } })
    }
}

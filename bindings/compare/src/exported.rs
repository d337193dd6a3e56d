//! The proved functions as the archive exports them, asked as `tockplover_reference` is: the same modules, functions
//! and answers, in full.

use tockplover_reference as reference;

use crate::raw;

/// The answer, or the refusal; on a refusal all other members of a struct are 0, and without one its own are.
#[inline(always)]
fn told<T, const N: usize>(
    refusal: tockplover::Refusal,
    others: [u64; N],
    answer: impl FnOnce() -> T,
) -> Result<T, reference::Refusal> {
    let tockplover::Refusal { number, place, kind, missing, .. } = refusal;
    if number == 0 {
        assert_eq!((place, kind, missing), (0, 0, 0), "place, type and missing bytes without a refusal");
        return Ok(answer());
    }
    assert!(others == [0; N], "a refusal with another member than 0: {others:?}");
    Err(reference::Refusal { number, place, kind, missing })
}

fn size(raw::Size { refusal, size }: raw::Size) -> Result<usize, reference::Refusal> {
    told(refusal, [size as u64], || size)
}

fn value(raw::Value { refusal, value }: raw::Value) -> Result<u64, reference::Refusal> {
    told(refusal, [value], || value)
}

fn part(raw::Part { start, size }: raw::Part) -> reference::Part {
    reference::Part { start, length: size }
}

fn span(raw::Span { refusal, start, size }: raw::Span) -> Result<reference::Part, reference::Refusal> {
    told(refusal, [start as u64, size as u64], || reference::Part { start, length: size })
}

/// BigSize.
pub mod bigsize {
    use super::{raw, size, told};
    use tockplover_reference::bigsize::BigSize;
    use tockplover_reference::Refusal;

    /// Reads the BigSize at the front of the bytes.
    pub fn read(bytes: &[u8]) -> Result<BigSize, Refusal> {
        let raw::Number { refusal, value, width } = raw::bigsize_read(bytes);
        told(refusal, [value, width as u64], || BigSize { value, width })
    }

    /// Writes the shortest form.
    pub fn write(value: u64, out: &mut [u8]) -> Result<usize, Refusal> {
        size(raw::bigsize_write(value, out))
    }
}

/// The table of known types.
pub mod table {
    use super::{raw, told};
    use tockplover_reference::table::Extension;
    use tockplover_reference::Refusal;

    /// Judges a table.
    pub fn check(table: &[u64]) -> Result<(), Refusal> {
        told(raw::table_check(table), [], || ())
    }

    /// Compares an older table with a newer one.
    pub fn extends(older: &[u64], newer: &[u64]) -> Extension {
        let raw::Extension { refusal, outcome, row } = raw::table_extends(older, newer);
        match (outcome, told(refusal, [row as u64], || ())) {
            (0, Ok(())) if row == 0 => Extension::Extends,
            (1, Err(refusal)) => Extension::OlderRefused(refusal),
            (2, Ok(())) => Extension::Lacks(row),
            (3, Err(refusal)) => Extension::NewerRefused(refusal),
            other => panic!("no answer of the header: {other:?}"),
        }
    }
}

/// Record streams.
pub mod stream {
    use super::{raw, span, told};
    use tockplover_reference::stream::Counts;
    use tockplover_reference::{Part, Refusal};

    fn counts(raw::Counts { refusal, records, known }: raw::Counts) -> Result<Counts, Refusal> {
        told(refusal, [records as u64, known as u64], || Counts { records, known })
    }

    /// Counts the outer records.
    pub fn count(table: &[u64], namespace: u64, stream: &[u8]) -> Result<Counts, Refusal> {
        counts(raw::stream_count(table, namespace, stream))
    }

    /// Reads a stream into an index.
    pub fn read(table: &[u64], namespace: u64, stream: &[u8], index: &mut [u64]) -> Result<Counts, Refusal> {
        counts(raw::stream_read(table, namespace, stream, index))
    }

    /// Whether a type is among the outer records.
    pub fn contains(table: &[u64], namespace: u64, stream: &[u8], kind: u64) -> Result<(), Refusal> {
        told(raw::stream_contains(table, namespace, stream, kind), [], || ())
    }

    /// Where the value of a type lies.
    pub fn locate(table: &[u64], namespace: u64, stream: &[u8], kind: u64) -> Result<Part, Refusal> {
        span(raw::stream_value(table, namespace, stream, kind))
    }
}

/// The stream writer.
pub mod stream_writer {
    use super::{raw, size};
    use tockplover_reference::Refusal;

    /// Writes the stream that the triples make.
    pub fn write(
        table: &[u64],
        namespace: u64,
        triples: &[u64],
        source: &[u8],
        out: &mut [u8],
    ) -> Result<usize, Refusal> {
        size(raw::stream_write(table, namespace, triples, source, out))
    }
}

/// Address descriptors.
pub mod address {
    use super::{part, raw, size, told};
    use tockplover_reference::address::Descriptor;
    use tockplover_reference::Refusal;

    /// Reads a descriptor.
    pub fn read(value: &[u8]) -> Result<Descriptor, Refusal> {
        let raw::Address { refusal, kind, rest } = raw::address_read(value);
        let rest = part(rest);
        told(refusal, [kind.into(), (rest.start | rest.length) as u64], || Descriptor { kind, rest })
    }

    /// Writes a descriptor.
    pub fn write(kind: u8, rest: &[u8], out: &mut [u8]) -> Result<usize, Refusal> {
        size(raw::address_write(kind, rest, out))
    }
}

/// Messages.
pub mod message {
    use super::{part, raw, size, span, told};
    use tockplover_reference::message::{Extension, Message};
    use tockplover_reference::stream::Counts;
    use tockplover_reference::{Part, Refusal};

    /// Reads a message.
    pub fn read(message: &[u8], index: &mut [u64]) -> Result<Message, Refusal> {
        let answer = raw::message_read(message, index);
        let raw::Message { refusal, outcome, kind, first, last, wanted, extension, records, known } = answer;
        let (first, last, extension) = (part(first), part(last), part(extension));
        let parts = first.start | first.length | last.start | last.length | extension.start | extension.length;
        let counts = records | known;
        let answer = told(refusal, [kind, wanted, parts as u64, counts as u64], || ());
        let extension = Extension { part: extension, counts: Counts { records, known } };
        match (outcome, answer, kind) {
            (1, Err(refusal), _) => Err(refusal),
            (2, Ok(()), kind) if (parts, counts, wanted) == (0, 0, 0) => {
                Ok(Message::PassedOver { kind: kind.try_into().expect("a message type") })
            }
            (0, Ok(()), 16) if wanted == 0 => Ok(Message::Init { globalfeatures: first, features: last, extension }),
            (0, Ok(()), 17) if wanted == 0 => Ok(Message::Error { channel: first, data: last, extension }),
            (0, Ok(()), 1) if wanted == 0 => Ok(Message::Warning { channel: first, data: last, extension }),
            (0, Ok(()), 18) if first == Part::default() => {
                Ok(Message::Ping { wanted: wanted.try_into().expect("two bytes"), filler: last, extension })
            }
            (0, Ok(()), 19) if first == Part::default() && wanted == 0 => Ok(Message::Pong { filler: last, extension }),
            other => panic!("no answer of the header: {other:?}"),
        }
    }

    /// Where an init's address lies.
    pub fn address(message: &[u8]) -> Result<Part, Refusal> {
        span(raw::message_address(message))
    }

    /// The group of a message type.
    pub fn group(kind: u64) -> u8 {
        raw::message_group(kind).try_into().expect("a group")
    }

    /// Joins two feature maps.
    pub fn join_features(a: &[u8], b: &[u8], out: &mut [u8]) -> Result<usize, Refusal> {
        size(raw::message_join_features(a, b, out))
    }

    /// Writes the pong for a ping.
    pub fn pong(wanted: u64, out: &mut [u8]) -> Result<Option<usize>, Refusal> {
        let raw::Reply { refusal, outcome, size } = raw::message_pong(wanted, out);
        match (outcome, told(refusal, [size as u64], || size)) {
            (0, Ok(size)) => Ok(Some(size)),
            (1, Err(refusal)) => Err(refusal),
            (2, Ok(0)) => Ok(None),
            other => panic!("no answer of the header: {other:?}"),
        }
    }
}

/// The message writer.
pub mod message_writer {
    use super::{raw, size};
    use tockplover_reference::Refusal;

    /// Writes a message.
    pub fn write(
        kind: u64,
        first: &[u8],
        last: &[u8],
        wanted: u16,
        triples: &[u64],
        source: &[u8],
        out: &mut [u8],
    ) -> Result<usize, Refusal> {
        size(raw::message_write(kind, first, last, wanted, triples, source, out))
    }
}

/// Invoices.
pub mod invoice {
    use super::{part, raw, size, told, value};
    use tockplover_reference::invoice::{Hop, Invoice};
    use tockplover_reference::money::Msat;
    use tockplover_reference::Refusal;

    /// Reads an invoice.
    pub fn read(text: &[u8], groups: &mut [u8], index: &mut [u64]) -> Result<Invoice, Refusal> {
        let answer = raw::invoice_read(text, groups, index);
        let raw::Invoice { refusal, prefix, asked, amount, msat, time, groups, fields, payment, expiry, delta } =
            answer;
        let amount = part(amount);
        let bytes = u64::from(prefix) | u64::from(asked);
        let counts = (amount.start | amount.length | groups | fields | payment) as u64;
        told(refusal, [bytes, msat, time, counts, expiry, delta], || {
            let msat = match asked {
                0 if msat == 0 => None,
                1 => Some(Msat(msat)),
                _ => panic!("no answer of the header: {asked}, {msat}"),
            };
            Invoice { prefix, amount, msat, time, groups, fields, payment, expiry, delta }
        })
    }

    /// Writes the whole bytes of a field.
    pub fn field_bytes(groups: &[u8], start: u64, count: u64, out: &mut [u8]) -> Result<usize, Refusal> {
        size(raw::invoice_field_bytes(groups, start, count, out))
    }

    /// The number that a field spells.
    pub fn field_number(groups: &[u8], start: u64, size: u64) -> Result<u64, Refusal> {
        value(raw::invoice_field_number(groups, start, size))
    }

    /// How many entries a route has.
    pub fn route_size(groups: &[u8], kind: u64, start: u64, size: u64) -> Result<usize, Refusal> {
        value(raw::invoice_route_size(groups, kind, start, size)).map(|size| size as usize)
    }

    /// Entry `k` of a route.
    pub fn route_entry(
        groups: &[u8],
        kind: u64,
        start: u64,
        size: u64,
        k: u64,
        key: &mut [u8],
    ) -> Result<Option<Hop>, Refusal> {
        let raw::Entry { refusal, outcome, channel, fee, delta } =
            raw::invoice_route_entry(groups, kind, start, size, k, key);
        let hop = Hop { channel, fee, delta };
        match (outcome, told(refusal, [channel, fee, delta.into()], || hop)) {
            (0, Ok(hop)) => Ok(Some(hop)),
            (1, Err(refusal)) => Err(refusal),
            (2, Ok(Hop { channel: 0, fee: 0, delta: 0 })) => Ok(None),
            other => panic!("no answer of the header: {other:?}"),
        }
    }
}

/// The invoice writer.
pub mod invoice_writer {
    use super::{raw, size};
    use tockplover_reference::Refusal;

    /// Writes an invoice's text; the prefix is below 256.
    pub fn write(
        prefix: u64,
        amount: &[u8],
        time: u64,
        fields: &[u8],
        signature: &[u8],
        out: &mut [u8],
    ) -> Result<usize, Refusal> {
        let prefix = prefix.try_into().expect("a prefix below 256");
        size(raw::invoice_write(prefix, amount, time, fields, signature, out))
    }
}

/// The till profile.
pub mod till {
    use super::{raw, told};
    use tockplover_reference::till::Profile;
    use tockplover_reference::Refusal;

    /// The rules that an invoice breaks.
    pub fn profile(text: &[u8]) -> Result<Profile, Refusal> {
        let raw::Profile { refusal, count, rules } = raw::till_profile(text);
        let [a, b, c, d, e, f] = rules.map(u64::from);
        told(refusal, [count as u64, a, b, c, d, e, f], || Profile { count, rules })
    }
}

/// Fields made.
pub mod field {
    use super::{raw, size};
    use tockplover_reference::Refusal;

    /// Makes a field of bytes; the type is below 256.
    pub fn from_bytes(kind: u64, bytes: &[u8], out: &mut [u8]) -> Result<usize, Refusal> {
        size(raw::invoice_field_from_bytes(kind.try_into().expect("a type below 256"), bytes, out))
    }

    /// Makes a field of a number; the type is below 256.
    pub fn from_number(kind: u64, number: u64, out: &mut [u8]) -> Result<usize, Refusal> {
        size(raw::invoice_field_from_number(kind.try_into().expect("a type below 256"), number, out))
    }
}

/// Money.
pub mod money {
    use super::{raw, value};
    use tockplover_reference::money::{Msat, Sat};
    use tockplover_reference::Refusal;

    /// The same amount in satoshis.
    pub fn to_sat(amount: Msat) -> Result<Sat, Refusal> {
        value(raw::money_to_sat(amount.0)).map(Sat)
    }
}

/// The recording book.
pub mod book {
    use super::{raw, size};
    use tockplover_reference::Refusal;

    /// Writes the report on a book.
    pub fn report(book: &[u8], out: &mut [u8]) -> Result<usize, Refusal> {
        size(raw::book_report(book, out))
    }
}

/// Month-end figures.
pub mod month {
    use super::{raw, size, told};
    use tockplover_reference::month::{Figures, Row};
    use tockplover_reference::Refusal;

    /// The figures as the plain side has them.
    fn plain(figures: raw::Figures) -> Figures {
        let raw::Figures { books, pairs, rows, invoices, unpriced, sum } = figures;
        let mut rows = rows.as_chunks().0.iter().map(|&row| {
            let [namespace, kind, known, known_bytes, passed_over, passed_over_bytes, frame_bytes] = row;
            Row { namespace, kind, known, known_bytes, passed_over, passed_over_bytes, frame_bytes }
        });
        let rows = std::array::from_fn(|_| rows.next().expect("512 rows"));
        Figures { books, pairs: pairs as usize, rows, invoices, unpriced, msat: sum.into() }
    }

    /// The figures as they are handed to an export.
    fn handed(figures: &Figures) -> raw::Figures {
        let Figures { books, pairs, rows, invoices, unpriced, msat } = figures;
        let mut numbers = rows.iter().flat_map(|row| {
            let Row { namespace, kind, known, known_bytes, passed_over, passed_over_bytes, frame_bytes } = *row;
            [namespace, kind, known, known_bytes, passed_over, passed_over_bytes, frame_bytes]
        });
        raw::Figures {
            books: *books,
            pairs: *pairs as u64,
            rows: std::array::from_fn(|_| numbers.next().expect("seven numbers to a row")),
            invoices: *invoices,
            unpriced: *unpriced,
            sum: (*msat).into(),
        }
    }

    /// The figures before the first book.
    pub fn empty() -> Figures {
        plain(raw::month_empty())
    }

    /// Adds a book to the figures.
    pub fn add(figures: Figures, book: &[u8]) -> (Figures, Result<(), Refusal>) {
        let raw::Added { refusal, figures } = raw::month_add(handed(&figures), book);
        (plain(figures), told(refusal, [], || ()))
    }

    /// A sum in satoshis.
    pub fn satoshi(msat: u128) -> Option<u128> {
        let raw::Halves { high, low } = msat.into();
        let raw::Satoshi { outcome, satoshi } = raw::month_satoshi(high, low);
        match (outcome, satoshi.into()) {
            (0, satoshi) => Some(satoshi),
            (2, 0) => None,
            other => panic!("no answer of the header: {other:?}"),
        }
    }

    /// Writes a number's decimal digits.
    pub fn decimal(number: u128, out: &mut [u8]) -> Result<usize, Refusal> {
        let raw::Halves { high, low } = number.into();
        size(raw::month_decimal(high, low, out))
    }
}

/// The mender.
pub mod mender {
    use super::{raw, told};
    use tockplover_reference::mender::{Changes, Mended};
    use tockplover_reference::Refusal;

    /// Mends a stream.
    pub fn mend(stream: &[u8], out: &mut [u8]) -> Result<Mended, Refusal> {
        let raw::Mended { refusal, size, changes } = raw::mend(stream, out);
        let raw::Changes { moved, dropped, respelled, cut } = changes;
        let others = [size, moved, dropped, respelled, cut].map(|count| count as u64);
        told(refusal, others, || Mended { length: size, changes: Changes { moved, dropped, respelled, cut } })
    }
}

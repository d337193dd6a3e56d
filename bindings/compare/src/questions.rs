//! Every question of documents 01 and 02 as a type: its fields are what is asked with, and both sides answer it alike.

use tockplover_reference::address::Descriptor;
use tockplover_reference::bigsize::BigSize;
use tockplover_reference::invoice::{Hop, Invoice};
use tockplover_reference::mender::{Changes, Mended};
use tockplover_reference::message::Message;
use tockplover_reference::money::{Msat, Sat};
use tockplover_reference::month;
use tockplover_reference::stream::Counts;
use tockplover_reference::table::Extension;
use tockplover_reference::till::Profile;
use tockplover_reference::{Part, Refusal};

use crate::shrink::Shrink;
use crate::Lent;

/// A question with its input.
pub trait Question: Clone {
    /// What is answered.
    type Answer: Answer;

    /// The answer of the plain Rust side, and the lent buffers afterwards.
    fn reference(&self) -> (Self::Answer, Lent);

    /// The answer of the proved functions that the archive exports.
    fn exported(&self) -> (Self::Answer, Lent);

    /// The answer of the proved side by the Rust crate, where that can be asked so.
    fn proved(&self) -> Option<(Self::Answer, Lent)>;

    /// Makes the input smaller while it is wrong; says whether it became so.
    fn shrink(&mut self, wrong: &mut dyn FnMut(&Self) -> bool) -> bool;

    /// Each part of the input with its name, in hex.
    fn hex(&self) -> Vec<(&'static str, String)>;
}

/// What kind of answer it was: a word, and the refusal's number or 0.
pub type Mark = (&'static str, u8);

/// An answer, compared in full.
pub trait Answer: PartialEq + std::fmt::Debug {
    /// What is counted.
    fn mark(&self) -> Mark;

    /// Whether it leaves every lent buffer as it was.
    fn leaves_all(&self) -> bool;
}

/// A word for an accepted answer.
pub trait Word {
    /// The word.
    fn word(&self) -> &'static str {
        "accepted"
    }

    /// Whether it is an answer without anything to write.
    fn is_none(&self) -> bool {
        false
    }
}

impl Word for () {}
impl Word for usize {}
impl Word for u64 {}
impl Word for Part {}
impl Word for Counts {}
impl Word for Sat {}

impl Word for BigSize {
    fn word(&self) -> &'static str {
        match self.width {
            1 => "width 1",
            3 => "width 3",
            5 => "width 5",
            _ => "width 9",
        }
    }
}

impl Word for Descriptor {
    fn word(&self) -> &'static str {
        match self.kind {
            1 => "IPv4",
            2 => "IPv6",
            3 => "Tor v2",
            4 => "Tor v3",
            5 => "DNS name",
            _ => "unknown type",
        }
    }
}

impl Word for Message {
    fn word(&self) -> &'static str {
        match self {
            Message::Init { .. } => "init",
            Message::Error { .. } => "error",
            Message::Warning { .. } => "warning",
            Message::Ping { .. } => "ping",
            Message::Pong { .. } => "pong",
            Message::PassedOver { .. } => "passed over",
        }
    }

    fn is_none(&self) -> bool {
        matches!(self, Message::PassedOver { .. })
    }
}

impl Word for Option<usize> {
    fn word(&self) -> &'static str {
        self.map_or("no pong", |_| "pong")
    }

    fn is_none(&self) -> bool {
        Option::is_none(self)
    }
}

impl Word for Option<Hop> {
    fn word(&self) -> &'static str {
        self.map_or("no entry", |_| "entry")
    }

    fn is_none(&self) -> bool {
        Option::is_none(self)
    }
}

impl Word for Invoice {
    fn word(&self) -> &'static str {
        self.msat.map_or("without amount", |_| "with amount")
    }
}

impl Word for Mended {
    fn word(&self) -> &'static str {
        if self.changes == Changes::default() {
            "right"
        } else {
            "mended"
        }
    }
}

/// What is told of the rules of the till profile that an invoice breaks.
pub const PROFILES: &[&str] = &[
    "breaks more",
    "clean",
    "breaks 1",
    "breaks 1 2",
    "breaks 1 3",
    "breaks 1 4",
    "breaks 1 5",
    "breaks 1 6",
    "breaks 2",
    "breaks 2 3",
    "breaks 2 4",
    "breaks 2 5",
    "breaks 2 6",
    "breaks 3",
    "breaks 3 4",
    "breaks 3 5",
    "breaks 3 6",
    "breaks 4",
    "breaks 4 5",
    "breaks 4 6",
    "breaks 5",
    "breaks 5 6",
    "breaks 6",
];

impl Word for Profile {
    fn word(&self) -> &'static str {
        let words = match self.rules[..self.count] {
            [] => "clean".to_string(),
            [rule] => format!("breaks {rule}"),
            [first, second] => format!("breaks {first} {second}"),
            _ => "breaks more".to_string(),
        };
        PROFILES.iter().find(|known| **known == words).unwrap_or(&"another profile")
    }
}

impl<T: Word + PartialEq + std::fmt::Debug> Answer for Result<T, Refusal> {
    fn mark(&self) -> Mark {
        self.as_ref().map_or_else(|refusal| ("refused", refusal.number), |answer| (answer.word(), 0))
    }

    fn leaves_all(&self) -> bool {
        self.as_ref().map_or(true, Word::is_none)
    }
}

impl Answer for Extension {
    fn mark(&self) -> Mark {
        match self {
            Extension::Extends => ("extends", 0),
            Extension::Lacks(_) => ("lacks", 0),
            Extension::OlderRefused(refusal) => ("older refused", refusal.number),
            Extension::NewerRefused(refusal) => ("newer refused", refusal.number),
        }
    }

    fn leaves_all(&self) -> bool {
        true
    }
}

/// The group of a message type.
impl Answer for u8 {
    fn mark(&self) -> Mark {
        let groups = ["group 0", "group 1", "group 2", "group 3", "group 4", "group 5"];
        (groups.get(usize::from(*self)).copied().unwrap_or("another group"), 0)
    }

    fn leaves_all(&self) -> bool {
        true
    }
}

/// A report's length and its first line.
#[derive(Debug, PartialEq)]
pub struct Report(usize, Vec<u8>);

impl Report {
    fn of(length: usize, out: &[u8]) -> Self {
        Self(length, out[..length].split(|&byte| byte == b'\n').next().unwrap_or(&[]).to_vec())
    }
}

impl Word for Report {
    fn word(&self) -> &'static str {
        match &self.1[..] {
            b"book refused 60" => "book refused 60",
            b"book refused 61" => "book refused 61",
            b"book refused 62" => "book refused 62",
            b"book refused 63" => "book refused 63",
            b"book refused 70" => "book refused 70",
            b"book refused 71" => "book refused 71",
            b"book refused 72" => "book refused 72",
            line if line.starts_with(b"rows ") => "rows",
            _ => "another report",
        }
    }
}

/// A sum in satoshi.
impl Answer for Option<u128> {
    fn mark(&self) -> Mark {
        (self.map_or("not whole", |_| "whole"), 0)
    }

    fn leaves_all(&self) -> bool {
        true
    }
}

/// Figures of a side.
trait Figures: Sized {
    /// As the plain side has them.
    fn plain(&self) -> month::Figures;

    /// Those that the plain side would have.
    fn given(figures: month::Figures) -> Self;
}

impl Figures for month::Figures {
    fn plain(&self) -> month::Figures {
        self.clone()
    }

    fn given(figures: month::Figures) -> Self {
        figures
    }
}

impl Figures for tockplover::month::Figures {
    fn plain(&self) -> month::Figures {
        assert_eq!(self.satoshi(), month::satoshi(self.millisatoshi()));
        let mut figures = if self.are_none() { month::none() } else { month::empty() };
        for (place, row) in self.rows().enumerate() {
            figures.pairs = place + 1;
            figures.rows[place] = month::Row {
                namespace: row.namespace,
                kind: row.kind,
                known: row.known,
                known_bytes: row.known_bytes,
                passed_over: row.passed_over,
                passed_over_bytes: row.passed_over_bytes,
                frame_bytes: row.frame_bytes,
            };
        }
        let (books, invoices, unpriced) = (self.books(), self.invoices(), self.without_amount());
        month::Figures { books, invoices, unpriced, msat: self.millisatoshi(), ..figures }
    }

    fn given(_: month::Figures) -> Self {
        panic!("the crate has no figures but those of a run");
    }
}

/// What a book got, and the figures after it.
#[derive(Debug, PartialEq)]
pub struct Step(Result<(), Refusal>, month::Figures);

impl Step {
    fn of(added: (impl Figures, Result<(), Refusal>)) -> Self {
        Self(added.1, added.0.plain())
    }
}

impl Answer for Step {
    fn mark(&self) -> Mark {
        self.0.mark()
    }

    fn leaves_all(&self) -> bool {
        true
    }
}

/// The empty figures, and a step for each book; it is marked by the last book's.
#[derive(Debug, PartialEq)]
pub struct Steps(month::Figures, Vec<Step>);

impl Steps {
    fn of<F: Figures>(books: &[Vec<u8>], empty: F, add: impl Fn(F, &[u8]) -> (F, Result<(), Refusal>)) -> Self {
        let mut steps = Self(empty.plain(), Vec::new());
        let mut figures = empty;
        for book in books {
            let (next, answer) = add(figures, book);
            steps.1.push(Step(answer, next.plain()));
            figures = next;
        }
        steps
    }
}

impl Answer for Steps {
    fn mark(&self) -> Mark {
        self.1.last().map_or(("no book", 0), Answer::mark)
    }

    fn leaves_all(&self) -> bool {
        true
    }
}

/// The number of two halves.
fn whole(high: u64, low: u64) -> u128 {
    u128::from(high) << 64 | u128::from(low)
}

/// Figures with the rows that the numbers make, seven to a row, and as many pairs as are named.
fn figures(numbers: &[u64], pairs: u64, others: [u64; 5]) -> month::Figures {
    let [books, invoices, unpriced, high, low] = others;
    let mut figures =
        month::Figures { books, pairs: pairs as usize, invoices, unpriced, msat: whole(high, low), ..month::empty() };
    for (row, numbers) in figures.rows.iter_mut().zip(numbers.as_chunks().0) {
        let [namespace, kind, known, known_bytes, passed_over, passed_over_bytes, frame_bytes] = *numbers;
        *row = month::Row { namespace, kind, known, known_bytes, passed_over, passed_over_bytes, frame_bytes };
    }
    figures
}

/// What a side answered of a mended stream, which it leaves as it is when it mends it again.
fn unchanged_again(mended: Mended, out: &[u8], mend: impl Fn(&[u8], &mut [u8]) -> Result<Mended, Refusal>) -> Mended {
    let right = &out[..mended.length];
    let mut again = vec![0; right.len()];
    assert_eq!(mend(right, &mut again), Ok(Mended { changes: Changes::default(), ..mended }), "mended again");
    assert!(again == right, "other bytes when mended again");
    mended
}

/// Defines questions; `$side` stands for each side in turn, `$lent` for the buffers.
macro_rules! questions {
    ($($(#[$doc:meta])* $name:ident { $($part:ident: $type:ty),* } -> $answer:ty:
        |$side:ident, $lent:ident| $ask:expr $(, by the crate if $asked:expr)?;)*) => {$(
        $(#[$doc])*
        #[derive(Clone, Debug)]
        pub struct $name { $(#[doc = stringify!($part)] pub $part: $type),* }

        impl Question for $name {
            type Answer = $answer;

            fn reference(&self) -> ($answer, Lent) {
                use tockplover_reference as $side;
                #[allow(unused_mut, reason = "some questions lend nothing")]
                let mut $lent = Lent::default();
                let Self { $($part),* } = self;
                ($ask, $lent)
            }

            fn exported(&self) -> ($answer, Lent) {
                use crate::exported as $side;
                #[allow(unused_mut, reason = "some questions lend nothing")]
                let mut $lent = Lent::default();
                let Self { $($part),* } = self;
                ($ask, $lent)
            }

            fn proved(&self) -> Option<($answer, Lent)> {
                use crate::proved as $side;
                #[allow(unused_mut, reason = "some questions lend nothing")]
                let mut $lent = Lent::default();
                let Self { $($part),* } = self;
                $(if !$asked {
                    return None;
                })?
                Some(($ask, $lent))
            }

            fn shrink(&mut self, wrong: &mut dyn FnMut(&Self) -> bool) -> bool {
                let mut smaller = false;
                $({
                    let mut whole = self.clone();
                    smaller |= self.$part.shrink(&mut |part| {
                        whole.$part = part.clone();
                        wrong(&whole)
                    });
                })*
                smaller
            }

            fn hex(&self) -> Vec<(&'static str, String)> {
                vec![$((stringify!($part), self.$part.hex())),*]
            }
        }
    )*};
}

questions! {
    /// The number at the front of some bytes.
    BigSizeRead { bytes: Vec<u8> } -> Result<BigSize, Refusal>:
        |side, lent| side::bigsize::read(bytes);
    /// The shortest form of a number.
    BigSizeWrite { value: u64, room: usize } -> Result<usize, Refusal>:
        |side, lent| side::bigsize::write(*value, lent.bytes(*room));

    /// Whether a run of numbers is a table.
    TableCheck { table: Vec<u64> } -> Result<(), Refusal>:
        |side, lent| side::table::check(table);
    /// Whether a newer table holds every row of an older one unchanged.
    TableExtends { older: Vec<u64>, newer: Vec<u64> } -> Extension:
        |side, lent| side::table::extends(older, newer);

    /// The counts of a stream's records.
    StreamCount { table: Vec<u64>, namespace: u64, stream: Vec<u8> } -> Result<Counts, Refusal>:
        |side, lent| side::stream::count(table, *namespace, stream);
    /// A stream read into an index.
    StreamRead { table: Vec<u64>, namespace: u64, stream: Vec<u8>, room: usize } -> Result<Counts, Refusal>:
        |side, lent| side::stream::read(table, *namespace, stream, lent.numbers(*room));
    /// Whether a type is among the records.
    StreamContains { table: Vec<u64>, namespace: u64, stream: Vec<u8>, kind: u64 } -> Result<(), Refusal>:
        |side, lent| side::stream::contains(table, *namespace, stream, *kind);
    /// Where a type's value lies.
    StreamValue { table: Vec<u64>, namespace: u64, stream: Vec<u8>, kind: u64 } -> Result<Part, Refusal>:
        |side, lent| side::stream::locate(table, *namespace, stream, *kind);
    /// A stream written from triples.
    StreamWrite { table: Vec<u64>, namespace: u64, triples: Vec<u64>, source: Vec<u8>, room: usize }
        -> Result<usize, Refusal>:
        |side, lent| side::stream_writer::write(table, *namespace, triples, source, lent.bytes(*room));

    /// A value read as an address descriptor.
    AddressRead { value: Vec<u8> } -> Result<Descriptor, Refusal>:
        |side, lent| side::address::read(value);
    /// An address descriptor written; the type is below 256.
    AddressWrite { kind: u64, rest: Vec<u8>, room: usize } -> Result<usize, Refusal>:
        |side, lent| side::address::write(*kind as u8, rest, lent.bytes(*room));

    /// A message read, its extension into an index.
    MessageRead { message: Vec<u8>, room: usize } -> Result<Message, Refusal>:
        |side, lent| side::message::read(message, lent.numbers(*room));
    /// A message written.
    MessageWrite {
        kind: u64, first: Vec<u8>, last: Vec<u8>, wanted: u64, triples: Vec<u64>, source: Vec<u8>, room: usize
    } -> Result<usize, Refusal>:
        |side, lent| {
            let wanted = *wanted as u16;
            side::message_writer::write(*kind, first, last, wanted, triples, source, lent.bytes(*room))
        },
        by the crate if matches!(kind, 1 | 16..=19);
    /// Where an init's address lies.
    MessageAddress { message: Vec<u8> } -> Result<Part, Refusal>:
        |side, lent| side::message::address(message);
    /// The group of a message type.
    MessageGroup { kind: u64 } -> u8:
        |side, lent| side::message::group(*kind);
    /// Two feature maps joined.
    JoinFeatures { a: Vec<u8>, b: Vec<u8>, room: usize } -> Result<usize, Refusal>:
        |side, lent| side::message::join_features(a, b, lent.bytes(*room));
    /// The pong for a ping.
    Pong { wanted: u64, room: usize } -> Result<Option<usize>, Refusal>:
        |side, lent| side::message::pong(*wanted, lent.bytes(*room));

    /// An invoice read into groups and an index.
    InvoiceRead { text: Vec<u8>, groups_room: usize, index_room: usize } -> Result<Invoice, Refusal>:
        |side, lent| {
            let (groups, index) = lent.both(*groups_room, *index_room);
            side::invoice::read(text, groups, index)
        };
    /// An invoice written; the prefix is below 256.
    InvoiceWrite {
        prefix: u64, amount: Vec<u8>, time: u64, fields: Vec<u8>, signature: Vec<u8>, room: usize
    } -> Result<usize, Refusal>:
        |side, lent| side::invoice_writer::write(*prefix, amount, *time, fields, signature, lent.bytes(*room)),
        by the crate if matches!(prefix, 1 | 2);
    /// The rules of the till profile that an invoice breaks.
    TillProfile { text: Vec<u8> } -> Result<Profile, Refusal>:
        |side, lent| side::till::profile(text);
    /// The whole bytes of a field.
    FieldBytes { groups: Vec<u8>, start: u64, size: u64, room: usize } -> Result<usize, Refusal>:
        |side, lent| side::invoice::field_bytes(groups, *start, *size, lent.bytes(*room));
    /// The number that a field spells.
    FieldNumber { groups: Vec<u8>, start: u64, size: u64 } -> Result<u64, Refusal>:
        |side, lent| side::invoice::field_number(groups, *start, *size);
    /// How many entries a route has.
    RouteSize { groups: Vec<u8>, kind: u64, start: u64, size: u64 } -> Result<usize, Refusal>:
        |side, lent| side::invoice::route_size(groups, *kind, *start, *size);
    /// An entry of a route.
    RouteEntry { groups: Vec<u8>, kind: u64, start: u64, size: u64, k: u64, room: usize }
        -> Result<Option<Hop>, Refusal>:
        |side, lent| side::invoice::route_entry(groups, *kind, *start, *size, *k, lent.bytes(*room)),
        by the crate if *room >= 33;
    /// A field made of bytes; the type is below 256.
    FieldFromBytes { kind: u64, bytes: Vec<u8>, room: usize } -> Result<usize, Refusal>:
        |side, lent| side::field::from_bytes(*kind, bytes, lent.bytes(*room));
    /// A field made of a number; the type is below 256.
    FieldFromNumber { kind: u64, number: u64, room: usize } -> Result<usize, Refusal>:
        |side, lent| side::field::from_number(*kind, *number, lent.bytes(*room));

    /// Millisatoshis as satoshis.
    ToSat { msat: u64 } -> Result<Sat, Refusal>:
        |side, lent| side::money::to_sat(Msat(*msat));

    /// The report on a book.
    BookReport { book: Vec<u8>, room: usize } -> Result<Report, Refusal>:
        |side, lent| {
            let out = lent.bytes(*room);
            side::book::report(book, out).map(|length| Report::of(length, out))
        };

    /// Books added to empty figures one after the other.
    MonthRun { books: Vec<Vec<u8>> } -> Steps:
        |side, lent| Steps::of(books, side::month::empty(), side::month::add);
    /// A book added to any figures.
    MonthAdd {
        rows: Vec<u64>, pairs: u64, books: u64, invoices: u64, unpriced: u64, high: u64, low: u64, book: Vec<u8>
    } -> Step:
        |side, lent| {
            let figures = figures(rows, *pairs, [*books, *invoices, *unpriced, *high, *low]);
            Step::of(side::month::add(Figures::given(figures), book))
        },
        by the crate if false;
    /// A sum in satoshi.
    MonthSatoshi { high: u64, low: u64 } -> Option<u128>:
        |side, lent| side::month::satoshi(whole(*high, *low));
    /// A sum in decimal.
    MonthDecimal { high: u64, low: u64, room: usize } -> Result<usize, Refusal>:
        |side, lent| side::month::decimal(whole(*high, *low), lent.bytes(*room));

    /// A stream mended, and mended again.
    Mend { stream: Vec<u8>, room: usize } -> Result<Mended, Refusal>:
        |side, lent| {
            let out = lent.bytes(*room);
            side::mender::mend(stream, out).map(|mended| unchanged_again(mended, out, side::mender::mend))
        };
}

//! The tagged fields of an invoice, by their letters and meanings.
use tockplover::invoice::{self, Entry, Field, Invoice};

use crate::hex;
use crate::json::Json;
use crate::shown::{self, count};

/// The bech32 alphabet: the letter of each group of five bits.
const ALPHABET: &[u8; 32] = b"qpzry9x8gf2tvdw0s3jn54khce6mua7l";

/// The types of fields.
const PAYMENT_HASH: u64 = 1;
const ROUTE: u64 = 3;
pub const EXPIRY: u64 = 6;
const FALLBACK: u64 = 9;
const DESCRIPTION: u64 = 13;
const PAYEE: u64 = 19;
const DESCRIPTION_HASH: u64 = 23;
pub const MIN_FINAL_CLTV: u64 = 24;

/// What a field says.
enum Content {
    /// A hash or a key.
    Bytes(Vec<u8>),
    /// A description, which should be text.
    Description(Vec<u8>),
    /// A number of seconds or of blocks.
    Number(u64),
    /// An address on the chain: its version, and its hash or witness program.
    Fallback(u8, Vec<u8>),
    /// The hops of a route.
    Route(Vec<Entry>),
    /// Nothing that is used, and why not.
    PassedOver(&'static str),
}

/// A field that was read.
pub struct FieldItem {
    kind: u64,
    groups: Vec<u8>,
    content: Content,
    /// Of p, x and c, whether this one counts: the first that is usable.
    counts: Option<bool>,
}

/// What a type is called.
fn name(kind: u64) -> Option<&'static str> {
    match kind {
        PAYMENT_HASH => Some("payment hash"),
        ROUTE => Some("route"),
        EXPIRY => Some("expiry"),
        FALLBACK => Some("fallback"),
        DESCRIPTION => Some("description"),
        PAYEE => Some("payee key"),
        DESCRIPTION_HASH => Some("description hash"),
        MIN_FINAL_CLTV => Some("min_final_cltv_expiry"),
        _ => None,
    }
}

/// What a fallback's version stands for; BOLT 11 passes over those that it does not name.
fn version_name(version: u8) -> Option<&'static str> {
    match version {
        0..=16 => Some("witness program"),
        17 => Some("public key hash"),
        18 => Some("script hash"),
        _ => None,
    }
}

/// Groups as letters of the alphabet.
fn letters(groups: &[u8]) -> String {
    groups.iter().map(|&group| char::from(ALPHABET[usize::from(group % 32)])).collect()
}

/// The whole bytes of some of the reader's own groups.
pub fn bytes(groups: &[u8], field: Field) -> Vec<u8> {
    let mut out = vec![0; field.size as usize];
    let size = invoice::field_bytes(groups, field, &mut out)
        .expect("the field lies inside, with room for it")
        .len();
    out.truncate(size);
    out
}

/// The hops of a route; none where the field is no usable route.
fn hops(groups: &[u8], field: Field) -> Vec<Entry> {
    let size = invoice::route_size(groups, field).unwrap_or(0);
    let entry = |hop| invoice::route_entry(groups, field, hop).ok().flatten();
    (0..size).filter_map(entry).collect()
}

/// What a field of the reader's own groups says.
fn content(groups: &[u8], field: Field) -> Content {
    match (field.kind, field.size) {
        (PAYMENT_HASH | DESCRIPTION_HASH, 52) | (PAYEE, 53) => Content::Bytes(bytes(groups, field)),
        (PAYMENT_HASH | DESCRIPTION_HASH, _) => Content::PassedOver("it does not have 52 groups"),
        (PAYEE, _) => Content::PassedOver("it does not have 53 groups"),
        (DESCRIPTION, _) => Content::Description(bytes(groups, field)),
        (EXPIRY | MIN_FINAL_CLTV, _) => match invoice::field_number(groups, field) {
            Ok(number) => Content::Number(number),
            Err(_) => Content::PassedOver("it has over 12 groups"),
        },
        (FALLBACK, 0) => Content::PassedOver("it has no version"),
        (FALLBACK, size) => {
            let program = bytes(groups, Field::new(field.kind, field.start + 1, size - 1));
            Content::Fallback(groups[field.start as usize], program)
        }
        (ROUTE, _) => match hops(groups, field) {
            hops if hops.is_empty() => Content::PassedOver("its bytes are no whole hops of 51"),
            hops => Content::Route(hops),
        },
        _ => Content::PassedOver("its type is unknown"),
    }
}

/// The fields of an invoice, in their order.
pub fn of(read: &Invoice) -> Vec<FieldItem> {
    let groups = read.groups();
    let item = |field: Field| FieldItem {
        kind: field.kind,
        groups: groups[field.start as usize..][..field.size as usize].to_vec(),
        content: content(groups, field),
        counts: None,
    };
    let mut items: Vec<FieldItem> = read.fields().map(item).collect();
    let first = |kind| items.iter().position(|item| item.kind == kind && !item.is_passed_over());
    let counted = [Some(read.payment), first(EXPIRY), first(MIN_FINAL_CLTV)];
    for (row, item) in items.iter_mut().enumerate() {
        if matches!(item.kind, PAYMENT_HASH | EXPIRY | MIN_FINAL_CLTV) {
            item.counts = Some(counted.contains(&Some(row)));
        }
    }
    items
}

/// A channel as the block, the transaction in it and the output of that.
fn channel_parts(channel: u64) -> String {
    format!("{}x{}x{}", channel >> 40, channel >> 16 & 0xff_ffff, channel & 0xffff)
}

/// The line of a hop, whose number counts from 1.
fn hop_line(number: usize, hop: &Entry) -> String {
    let key = hex::digits(&hop.key);
    let channel = channel_parts(hop.channel);
    let delta = count(hop.delta.into(), "block");
    format!(
        "  hop {number}: key {key}, channel {channel} ({}), fee {} msat, delta {delta}\n",
        hop.channel, hop.fee
    )
}

/// The object of a hop.
fn hop_json(hop: &Entry) -> Json {
    Json::Object(vec![
        ("key", Json::hex(&hop.key)),
        ("channel", Json::digits(hop.channel)),
        ("short_channel_id", Json::Text(channel_parts(hop.channel))),
        ("fee_msat", Json::digits(hop.fee)),
        ("delta", Json::Number(hop.delta.into())),
    ])
}

/// A description as text, where it is one.
fn description_words(bytes: &[u8]) -> String {
    match std::str::from_utf8(bytes) {
        Ok(text) => shown::text(text),
        Err(_) => format!("not UTF-8, {}", hex::digits(bytes)),
    }
}

impl FieldItem {
    /// Whether this is the field of its kind that counts.
    pub fn is_counted(&self, kind: u64) -> bool {
        self.kind == kind && self.counts == Some(true)
    }

    /// Whether a reader has no use for this field.
    fn is_passed_over(&self) -> bool {
        match self.content {
            Content::PassedOver(_) => true,
            Content::Fallback(version, _) => version_name(version).is_none(),
            _ => false,
        }
    }

    /// The letter of the field's type.
    fn letter(&self) -> String {
        letters(&[self.kind as u8])
    }

    /// The content in words, on the field's own line.
    fn words(&self) -> String {
        match &self.content {
            Content::Bytes(bytes) => hex::digits(bytes),
            Content::Description(bytes) => description_words(bytes),
            Content::Number(number) => count(*number, if self.kind == EXPIRY { "second" } else { "block" }),
            Content::Fallback(version, program) => {
                let name = version_name(*version).unwrap_or("unknown and passed over");
                format!("version {version}, {name}, {}", hex::words(program))
            }
            Content::Route(hops) => count(hops.len() as u64, "hop"),
            Content::PassedOver(why) => {
                let groups = format!("{} {}", count(self.groups.len() as u64, "group"), letters(&self.groups));
                format!("passed over, for {why}; {}", groups.trim_end())
            }
        }
    }

    /// The field's line, and a line for each hop of a route.
    pub fn lines(&self) -> String {
        let name = name(self.kind).map_or(format!("type {}", self.kind), str::to_string);
        let counts = match self.counts {
            Some(true) => ", this one counts",
            Some(false) if !self.is_passed_over() => ", an earlier one counts",
            _ => "",
        };
        let mut lines = format!("field {}, {name}: {}{counts}\n", self.letter(), self.words());
        if let Content::Route(hops) = &self.content {
            lines.extend(hops.iter().zip(1..).map(|(hop, number)| hop_line(number, hop)));
        }
        lines
    }

    /// What an object about the field has for its content.
    fn content_pairs(&self) -> Vec<(&'static str, Json)> {
        match &self.content {
            Content::Bytes(bytes) => vec![("hex", Json::hex(bytes))],
            Content::Description(bytes) => vec![("text", Json::text(std::str::from_utf8(bytes).ok())), ("hex", Json::hex(bytes))],
            Content::Number(number) if self.kind == EXPIRY => vec![("seconds", Json::digits(*number))],
            Content::Number(number) => vec![("blocks", Json::digits(*number))],
            Content::Fallback(version, program) => vec![("version", Json::Number((*version).into())), ("hex", Json::hex(program))],
            Content::Route(hops) => vec![("hops", Json::List(hops.iter().map(hop_json).collect()))],
            Content::PassedOver(why) => vec![("why", Json::Text(why.to_string())), ("letters", Json::Text(letters(&self.groups)))],
        }
    }

    /// The field's object.
    pub fn json(&self) -> Json {
        let mut pairs = vec![
            ("type", Json::Number(self.kind)),
            ("letter", Json::Text(self.letter())),
            ("name", Json::text(name(self.kind))),
            ("groups", Json::count(self.groups.len())),
            ("passed_over", Json::Bool(self.is_passed_over())),
        ];
        pairs.extend(self.counts.map(|counts| ("counts", Json::Bool(counts))));
        pairs.extend(self.content_pairs());
        Json::Object(pairs)
    }
}

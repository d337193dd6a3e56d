//! Invoices: read and written. No signature is checked or made.
use crate::money::Msat;
use crate::raw;
use crate::Refusal;

/// No invoice has more characters, and none more groups.
pub const MOST: usize = 4_096;

/// No field has more groups, with its type and its length.
pub const FIELD_MOST: usize = 1_026;

/// What an invoice's text begins with.
#[derive(Clone, Copy, Debug, PartialEq, Eq)]
#[non_exhaustive]
pub enum Prefix {
    /// `lnbc`, mainnet.
    Lnbc = 1,
    /// `lntb`, testnet.
    Lntb = 2,
}

impl Prefix {
    /// The letters that the text begins with.
    pub fn letters(self) -> &'static str {
        match self {
            Prefix::Lnbc => "lnbc",
            Prefix::Lntb => "lntb",
        }
    }

    /// The network that they name.
    ///
    /// ```
    /// assert_eq!(tockplover::invoice::Prefix::Lntb.network(), "testnet");
    /// ```
    pub fn network(self) -> &'static str {
        match self {
            Prefix::Lnbc => "mainnet",
            Prefix::Lntb => "testnet",
        }
    }
}

/// The types of fields, each with its letter in BOLT 11. A field of another type may stand in an invoice too.
pub mod field_type {
    /// p: the payment hash, 32 bytes.
    pub const PAYMENT_HASH: u8 = 1;
    /// r: a route to the payee, of entries.
    pub const ROUTE: u8 = 3;
    /// x: the expiry, a number of seconds.
    pub const EXPIRY: u8 = 6;
    /// f: an address to pay to where the payment fails; not judged.
    pub const FALLBACK: u8 = 9;
    /// d: what the payment is for, a text; its bytes are not judged.
    pub const DESCRIPTION: u8 = 13;
    /// n: the payee's public key, 33 bytes.
    pub const PAYEE: u8 = 19;
    /// h: the hash of a longer description, 32 bytes.
    pub const DESCRIPTION_HASH: u8 = 23;
    /// c: the delta of the last hop, a number of blocks.
    pub const DELTA: u8 = 24;
}

/// A tagged field: where its content lies among an invoice's groups.
#[derive(Clone, Copy, Debug, PartialEq, Eq)]
#[non_exhaustive]
pub struct Field {
    /// Its type, of [`field_type`] or another.
    pub kind: u64,
    /// The first group of its content; the time's first group is 0.
    pub start: u64,
    /// How many groups its content has.
    pub size: u64,
}

impl Field {
    /// A field of any type, start and size; whoever takes it asks whether it lies inside the groups.
    pub fn new(kind: u64, start: u64, size: u64) -> Self {
        Field { kind, start, size }
    }

    /// Whether it has this type.
    ///
    /// ```
    /// use tockplover::invoice::{field_type, Field};
    /// assert!(Field::new(13, 0, 2).is(field_type::DESCRIPTION));
    /// ```
    pub fn is(&self, kind: u8) -> bool {
        self.kind == kind.into()
    }

    /// The field of a row of the index.
    fn of_row(row: &[u64]) -> Self {
        Field::new(row[0], row[1], row[2])
    }
}

/// An entry of a route.
#[derive(Clone, Copy, Debug, PartialEq, Eq)]
#[non_exhaustive]
pub struct Entry {
    /// The public key.
    pub key: [u8; 33],
    /// The channel.
    pub channel: u64,
    /// The fee.
    pub fee: u64,
    /// The blocks.
    pub delta: u16,
}

/// An invoice that was read.
#[derive(Clone, Copy, Debug, PartialEq, Eq)]
pub struct Invoice<'t, 'b> {
    /// The prefix.
    pub prefix: Prefix,
    /// The amount's characters in the text, its letter included; empty without one.
    pub amount: &'t [u8],
    /// The amount, exact and at least 1, where the text names one; never an amount of 0.
    pub msat: Option<Msat>,
    /// Seconds since 1970.
    pub time: u64,
    /// The row, among the fields, of the first usable payment hash.
    pub payment: usize,
    /// Seconds; 3,600 where the text gives none.
    pub expiry: u64,
    /// Blocks; 9 where the text gives none.
    pub delta: u64,
    groups: &'b [u8],
    rows: &'b [u64],
}

impl<'b> Invoice<'_, 'b> {
    /// The groups of five bits, less the checksum's.
    pub fn groups(&self) -> &'b [u8] {
        self.groups
    }

    /// The groups of all fields, as [`write()`] takes them.
    pub fn field_groups(&self) -> &'b [u8] {
        &self.groups[7..self.groups.len() - 104]
    }

    /// The 104 groups of the signature.
    pub fn signature(&self) -> &'b [u8] {
        &self.groups[self.groups.len() - 104..]
    }

    /// The fields, in their order.
    pub fn fields(&self) -> impl Iterator<Item = Field> + use<'b> {
        self.rows.chunks_exact(3).map(Field::of_row)
    }

    /// The first usable payment hash.
    pub fn payment_hash(&self) -> Field {
        Field::of_row(&self.rows[3 * self.payment..])
    }
}

/// Reads an invoice in upper or lower case. Its groups and its fields go into the lent buffers; as many as the text has characters always
/// suffice, for either. Refused: 30 to 40, 12.
///
/// ```
/// use tockplover::invoice;
/// use tockplover::money::Msat;
/// let text = b"lnbc2500u1pvjluezpp5qqqsyqcyq5rqwzqfqqqsyqcyq5rqwzqfqqqsyqcyq5rqwzqfqypqdq5xysxxatsyp3k7enxv4jsxqzpuaztrnwngzn3kdzw\
/// 5hydlzf03qdgm2hdq27cqv3agm2awhz5se903vruatfhq77w3ls4evs3ch9zw97j25emudupq63nyw24cg27h2rspfj9srp";
/// let (mut groups, mut index) = ([0; 300], [0; 300]);
/// let read = invoice::read(text, &mut groups, &mut index)?;
/// assert_eq!(read.msat, Some(Msat(250_000_000)));
/// assert_eq!(read.expiry, 60);
///
/// let mut out = [0; 32];
/// let hash = invoice::field_bytes(read.groups(), read.payment_hash(), &mut out)?;
/// assert_eq!(hash[..4], [0, 1, 2, 3]);
///
/// let mut out = [0; 300];
/// let written = invoice::write(read.prefix, read.amount, read.time, read.field_groups(), read.signature(), &mut out)?;
/// assert_eq!(written, text);
/// # Ok::<(), tockplover::Refusal>(())
/// ```
pub fn read<'t, 'b>(text: &'t [u8], groups: &'b mut [u8], index: &'b mut [u64]) -> Result<Invoice<'t, 'b>, Refusal> {
    let answer = raw::invoice_read(text, groups, index);
    raw::accepted(answer.refusal)?;
    Ok(Invoice {
        prefix: if answer.prefix == 1 { Prefix::Lnbc } else { Prefix::Lntb },
        amount: &text[answer.amount.start..][..answer.amount.size],
        msat: if answer.asked == 1 { Some(Msat(answer.msat)) } else { None },
        time: answer.time,
        payment: answer.payment,
        expiry: answer.expiry,
        delta: answer.delta,
        groups: &groups[..answer.groups],
        rows: &index[..3 * answer.fields],
    })
}

/// Writes the text of an invoice, in lower case, from its amount's characters in either case, none for no amount, and the groups of its fields
/// and of its signature. With the letter p the amount's last digit must be 0. Refused: 42, 34, 37, 38 (also for a signature not of 104 groups), 39, 40, 30, 12.
///
/// ```
/// use tockplover::invoice;
/// let mut hash = [0; invoice::FIELD_MOST];
/// let fields = invoice::field_from_bytes(invoice::field_type::PAYMENT_HASH, &[7; 32], &mut hash)?;
/// let mut out = [0; invoice::MOST];
/// let text = invoice::write(invoice::Prefix::Lnbc, b"20M", 1_700_000_000, fields, &[0; 104], &mut out)?;
/// assert!(text.starts_with(b"lnbc20m1"));
///
/// let tenths = invoice::write(invoice::Prefix::Lnbc, b"15P", 1_700_000_000, fields, &[0; 104], &mut out);
/// assert_eq!(tenths.unwrap_err().number, tockplover::numbers::AMOUNT);
/// # Ok::<(), tockplover::Refusal>(())
/// ```
pub fn write<'o>(
    prefix: Prefix,
    amount: &[u8],
    time: u64,
    fields: &[u8],
    signature: &[u8],
    out: &'o mut [u8],
) -> Result<&'o [u8], Refusal> {
    raw::written(raw::invoice_write(prefix as u8, amount, time, fields, signature, out), out)
}

/// The whole bytes that a field's groups hold. Refused: 16 where the field reaches outside the groups, 34 with the place of a group above 31, 12.
///
/// ```
/// use tockplover::invoice::{field_bytes, Field};
/// let mut out = [0; 1];
/// assert_eq!(field_bytes(&[31, 28], Field::new(13, 0, 2), &mut out)?, [0xff]);
/// # Ok::<(), tockplover::Refusal>(())
/// ```
pub fn field_bytes<'o>(groups: &[u8], field: Field, out: &'o mut [u8]) -> Result<&'o [u8], Refusal> {
    raw::written(raw::invoice_field_bytes(groups, field.start, field.size, out), out)
}

/// The number that a field's groups spell, as those of x and c do. Refused: 16, 34, 38 for more than 12 groups.
///
/// ```
/// use tockplover::invoice::{field_number, Field};
/// assert_eq!(field_number(&[1, 28], Field::new(6, 0, 2)), Ok(60));
/// ```
pub fn field_number(groups: &[u8], field: Field) -> Result<u64, Refusal> {
    let answer = raw::invoice_field_number(groups, field.start, field.size);
    raw::accepted(answer.refusal)?;
    Ok(answer.value)
}

/// How many entries a route has: none where the field is no usable r. Refused: 16, 34.
///
/// ```
/// use tockplover::invoice::{route_size, Field};
/// assert_eq!(route_size(&[0; 82], Field::new(3, 0, 82)), Ok(1));
/// assert_eq!(route_size(&[0; 82], Field::new(13, 0, 82)), Ok(0));
/// ```
pub fn route_size(groups: &[u8], field: Field) -> Result<u64, Refusal> {
    let answer = raw::invoice_route_size(groups, field.kind, field.start, field.size);
    raw::accepted(answer.refusal)?;
    Ok(answer.value)
}

/// An entry of a route, from 0. None where the field is no usable r or has fewer. Refused: 16, 34.
///
/// ```
/// use tockplover::invoice::{route_entry, Field};
/// let route = Field::new(3, 0, 82);
/// assert_eq!(route_entry(&[31; 82], route, 0)?.unwrap().delta, 65_535);
/// assert_eq!(route_entry(&[31; 82], route, 1)?, None);
/// # Ok::<(), tockplover::Refusal>(())
/// ```
pub fn route_entry(groups: &[u8], field: Field, k: u64) -> Result<Option<Entry>, Refusal> {
    let mut key = [0; 33];
    let answer = raw::invoice_route_entry(groups, field.kind, field.start, field.size, k, &mut key);
    raw::accepted(answer.refusal)?;
    if answer.outcome == raw::NONE {
        return Ok(None);
    }
    Ok(Some(Entry {
        key,
        channel: answer.channel,
        fee: answer.fee,
        delta: answer.delta,
    }))
}

/// Makes a field of bytes, as p, h, n, d and r are: its groups, as [`write()`] takes them. Refused: 34 for a type above 31, 38 for more than
/// 1,023 groups, 12.
///
/// ```
/// let mut out = [0; tockplover::invoice::FIELD_MOST];
/// assert_eq!(tockplover::invoice::field_from_bytes(13, &[0xff], &mut out)?, [13, 0, 2, 31, 28]);
/// # Ok::<(), tockplover::Refusal>(())
/// ```
pub fn field_from_bytes<'o>(kind: u8, bytes: &[u8], out: &'o mut [u8]) -> Result<&'o [u8], Refusal> {
    raw::written(raw::invoice_field_from_bytes(kind, bytes, out), out)
}

/// Makes a field of a number, as x and c are, in as few groups as hold it. Refused: 34 for a type above 31, 38 for a number that needs more
/// than 12 groups, 12.
///
/// ```
/// let mut out = [0; tockplover::invoice::FIELD_MOST];
/// assert_eq!(tockplover::invoice::field_from_number(6, 60, &mut out)?, [6, 0, 2, 1, 28]);
/// # Ok::<(), tockplover::Refusal>(())
/// ```
pub fn field_from_number(kind: u8, number: u64, out: &mut [u8]) -> Result<&[u8], Refusal> {
    raw::written(raw::invoice_field_from_number(kind, number, out), out)
}

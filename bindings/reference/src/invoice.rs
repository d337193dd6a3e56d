//! Invoices: a human readable part with prefix and amount, and groups of five bits with time, fields and signature.

use crate::bech32::{self, Checksum, CHECKSUM_GROUPS};
use crate::money::{self, Msat};
use crate::refusal::{
    ensure, BOTH_CASES, BYTE_NO_CHARACTER, CHECKSUM, FIELDS, NO_GROUP, NO_PAYMENT_HASH, NO_ROOM, OUTSIDE, PREFIX,
    RECOVERY_BYTE, SEPARATOR, TEXT_TOO_LONG,
};
use crate::{Part, Refusal};

/// The most characters of an invoice.
pub const LONGEST: usize = 4_096;

/// The prefixes lnbc and lntb, which count from 1.
pub const PREFIXES: [[u8; 4]; 2] = [*b"lnbc", *b"lntb"];

/// The groups of the time.
pub const TIME_GROUPS: usize = 7;
/// The groups of the signature.
pub const SIGNATURE_GROUPS: usize = 104;
/// The groups of a field before its content.
pub const FIELD_HEAD: usize = 3;
/// The most groups of a number.
pub const NUMBER_GROUPS: usize = 12;
/// The numbers of an index row: type, first group of the content, group count.
pub const ROW_NUMBERS: usize = 3;

/// Payment hash.
pub const P: u8 = 1;
/// Route.
pub const R: u8 = 3;
/// Expiry.
pub const X: u8 = 6;
/// Description.
pub const D: u8 = 13;
/// Payee's key.
pub const N: u8 = 19;
/// Hash of the description.
pub const H: u8 = 23;
/// Delta of the last hop.
pub const C: u8 = 24;

/// The expiry without a usable x, in seconds.
pub const EXPIRY: u64 = 3_600;
/// The delta without a usable c.
pub const DELTA: u64 = 9;

/// The bytes of a key.
pub const KEY: usize = 33;
/// The bytes of a route's entry: key, channel, fee and delta.
pub const ENTRY: usize = 51;

/// An invoice that was read.
#[derive(Clone, Copy, Debug, PartialEq, Eq)]
pub struct Invoice {
    /// 1 for lnbc, 2 for lntb.
    pub prefix: u8,
    /// Where the amount's characters stand; none of them at 4 without an amount.
    pub amount: Part,
    /// The amount.
    pub msat: Option<Msat>,
    /// Seconds since 1970.
    pub time: u64,
    /// How many groups there are, less the checksum.
    pub groups: usize,
    /// How many fields there are.
    pub fields: usize,
    /// The row of the first usable p, from 0.
    pub payment: usize,
    /// The first usable x, or 3,600.
    pub expiry: u64,
    /// The first usable c, or 9.
    pub delta: u64,
}

/// A field: its type, and the content's first group and group count.
#[derive(Clone, Copy)]
pub(crate) struct Field {
    pub(crate) kind: u8,
    pub(crate) start: usize,
    pub(crate) size: usize,
}

/// The fields of a run of groups; an error where the last one does not end with the run.
pub(crate) struct Fields<'a> {
    pub(crate) groups: &'a [u8],
    pub(crate) at: usize,
}

impl Iterator for Fields<'_> {
    type Item = Result<Field, Refusal>;

    fn next(&mut self) -> Option<Self::Item> {
        let rest = &self.groups[self.at..];
        if rest.is_empty() {
            return None;
        }
        let start = self.at + FIELD_HEAD;
        let field = match *rest {
            [kind, high, low, ..] => Field { kind, start, size: usize::from(high) * 32 + usize::from(low) },
            _ => Field { kind: 0, start, size: usize::MAX },
        };
        if field.size > rest.len().saturating_sub(FIELD_HEAD) {
            self.at = self.groups.len();
            return Some(Err(Refusal::bare(FIELDS)));
        }
        self.at = start + field.size;
        Some(Ok(field))
    }
}

/// What the fields say together.
pub(crate) struct Summary {
    pub(crate) fields: usize,
    pub(crate) payment: Option<usize>,
    expiry: Option<u64>,
    delta: Option<u64>,
}

/// Goes over the fields from group `first` to the end of the groups, or gives 38. Type and content of each are shown to
/// `look`.
pub(crate) fn summary(groups: &[u8], first: usize, mut look: impl FnMut(u8, &[u8])) -> Result<Summary, Refusal> {
    let mut all = Summary { fields: 0, payment: None, expiry: None, delta: None };
    for field in (Fields { groups, at: first }) {
        let Field { kind, start, size } = field?;
        let content = &groups[start..start + size];
        look(kind, content);
        if usable(kind, size) {
            let number = || bech32::number(content);
            match kind {
                P => all.payment = all.payment.or(Some(all.fields)),
                X => all.expiry = all.expiry.or_else(|| Some(number())),
                C => all.delta = all.delta.or_else(|| Some(number())),
                _ => {}
            }
        }
        all.fields += 1;
    }
    Ok(all)
}

/// Whether a field of this type and size is usable.
pub fn usable(kind: u8, size: usize) -> bool {
    match kind {
        P | H => size == 52,
        N => size == 53,
        X | C => size <= NUMBER_GROUPS,
        R => entries_in(size) > 0,
        _ => false,
    }
}

/// How many entries a route of this size has; none unless its whole bytes are a multiple of an entry's.
fn entries_in(size: usize) -> usize {
    let bytes = bech32::whole_bytes(size);
    if bytes.is_multiple_of(ENTRY) {
        bytes / ENTRY
    } else {
        0
    }
}

/// The last byte of a signature: the low three bits of its 103rd group and the five of its 104th.
pub(crate) fn recovery_byte(signature: &[u8]) -> u8 {
    match *signature {
        [.., high, low] => (high & 7) << 5 | low,
        _ => 0,
    }
}

/// The groups of an accepted text, less the checksum, in a buffer that holds those of any invoice.
pub(crate) struct Groups {
    buffer: [u8; LONGEST],
    count: usize,
}

impl Groups {
    fn all(&self) -> &[u8] {
        &self.buffer[..self.count]
    }
}

/// Whether the test holds of any byte; all are looked at, which is faster than to stop at the first.
fn has(text: &[u8], test: impl Fn(&u8) -> bool) -> bool {
    text.iter().fold(false, |any, byte| any | test(byte))
}

/// The separator's place once 30 to 33 are passed.
fn separator(text: &[u8]) -> Result<usize, Refusal> {
    ensure(text.len() <= LONGEST, Refusal::bare(TEXT_TOO_LONG))?;
    let no_character = |byte: &u8| !(33..=126).contains(byte);
    if has(text, no_character) {
        let place = text.iter().position(no_character).unwrap_or(0);
        return Err(Refusal::at(BYTE_NO_CHARACTER, place, 0));
    }
    let both = has(text, u8::is_ascii_lowercase) && has(text, u8::is_ascii_uppercase);
    ensure(!both, Refusal::bare(BOTH_CASES))?;
    let parted = text.iter().rposition(|&c| c == b'1').ok_or(Refusal::bare(SEPARATOR))?;
    let behind = text.len() - parted - 1;
    let least = TIME_GROUPS + SIGNATURE_GROUPS + CHECKSUM_GROUPS;
    ensure(parted > 0 && behind >= least, Refusal::bare(SEPARATOR))?;
    Ok(parted)
}

/// The groups of the data once 34 and 35 are passed.
fn groups_in(text: &[u8], parted: usize) -> Result<Groups, Refusal> {
    let data = &text[parted + 1..];
    let mut buffer = [0; LONGEST];
    let mut seen = 0;
    let groups = buffer.iter_mut().zip(data).map(|(group, &character)| {
        *group = bech32::group_of(character);
        seen |= *group;
        *group
    });
    let checksum = Checksum::of_readable_part(&text[..parted]).with(groups);
    if seen >= bech32::NO_GROUP {
        let place = data.iter().position(|&character| bech32::group_of(character) == bech32::NO_GROUP);
        return Err(Refusal::at(NO_GROUP, parted + 1 + place.unwrap_or(0), 0));
    }
    ensure(checksum.holds(), Refusal::bare(CHECKSUM))?;
    Ok(Groups { buffer, count: data.len() - CHECKSUM_GROUPS })
}

/// Prefix and amount of the human readable part, 36 and 37; a text without a digit is a prefix alone.
fn price(readable: &[u8]) -> Result<(u8, Option<Msat>), Refusal> {
    let digit = readable.iter().position(u8::is_ascii_digit).unwrap_or(readable.len());
    let (prefix, amount) = readable.split_at(digit);
    let prefix = match PREFIXES.iter().position(|known| prefix.eq_ignore_ascii_case(known)) {
        Some(0) => 1,
        Some(_) => 2,
        None => return Err(Refusal::bare(PREFIX)),
    };
    let msat = if amount.is_empty() { None } else { Some(money::read_amount(amount)?) };
    Ok((prefix, msat))
}

/// The answer and the groups, 30 to 40.
fn judged(text: &[u8]) -> Result<(Invoice, Groups), Refusal> {
    judged_with(text, |_, _| ())
}

/// The same; type and content of each field are shown to `look`, also where 38 to 40 follow.
pub(crate) fn judged_with(text: &[u8], look: impl FnMut(u8, &[u8])) -> Result<(Invoice, Groups), Refusal> {
    let parted = separator(text)?;
    let groups = groups_in(text, parted)?;
    let (prefix, msat) = price(&text[..parted])?;
    let (front, signature) = groups.all().split_at(groups.count - SIGNATURE_GROUPS);
    let summary = summary(front, TIME_GROUPS, look)?;
    ensure(recovery_byte(signature) <= 3, Refusal::bare(RECOVERY_BYTE))?;
    let payment = summary.payment.ok_or(Refusal::bare(NO_PAYMENT_HASH))?;
    let invoice = Invoice {
        prefix,
        amount: Part { start: 4, length: parted - 4 },
        msat,
        time: bech32::number(&front[..TIME_GROUPS]),
        groups: groups.count,
        fields: summary.fields,
        payment,
        expiry: summary.expiry.unwrap_or(EXPIRY),
        delta: summary.delta.unwrap_or(DELTA),
    };
    Ok((invoice, groups))
}

/// Judges an invoice without buffers.
pub fn judge(text: &[u8]) -> Result<Invoice, Refusal> {
    judged(text).map(|(invoice, _)| invoice)
}

/// Reads an invoice: its groups less the checksum, and three numbers for each field, at the fronts of the buffers.
pub fn read(text: &[u8], groups: &mut [u8], index: &mut [u64]) -> Result<Invoice, Refusal> {
    let (invoice, accepted) = judged(text)?;
    let room = groups.len() >= invoice.groups && index.len() / ROW_NUMBERS >= invoice.fields;
    ensure(room, Refusal::bare(NO_ROOM))?;
    groups[..invoice.groups].copy_from_slice(accepted.all());
    let fields = Fields { groups: &accepted.all()[..invoice.groups - SIGNATURE_GROUPS], at: TIME_GROUPS };
    for (field, numbers) in fields.map_while(Result::ok).zip(index.as_chunks_mut().0) {
        *numbers = [field.kind.into(), field.start as u64, field.size as u64];
    }
    Ok(invoice)
}

/// The groups of a field: 16 where it reaches outside the lent ones, 34 at the first group above 31.
fn content(groups: &[u8], start: u64, size: u64) -> Result<&[u8], Refusal> {
    let end = start.checked_add(size).filter(|&end| end <= groups.len() as u64);
    let end = end.ok_or(Refusal::bare(OUTSIDE))?;
    let content = &groups[start as usize..end as usize];
    match content.iter().position(|&group| group > 31) {
        Some(place) => Err(Refusal::at(NO_GROUP, start as usize + place, 0)),
        None => Ok(content),
    }
}

/// Writes the whole bytes of a field and gives their count.
pub fn field_bytes(groups: &[u8], start: u64, size: u64, out: &mut [u8]) -> Result<usize, Refusal> {
    let content = content(groups, start, size)?;
    let count = bech32::whole_bytes(content.len());
    bech32::put_bytes(content, out.get_mut(..count).ok_or(Refusal::bare(NO_ROOM))?);
    Ok(count)
}

/// The number that a field spells; 38 for more than 12 groups.
pub fn field_number(groups: &[u8], start: u64, size: u64) -> Result<u64, Refusal> {
    let content = content(groups, start, size)?;
    ensure(content.len() <= NUMBER_GROUPS, Refusal::bare(FIELDS))?;
    Ok(bech32::number(content))
}

/// An entry of a route, without its key.
#[derive(Clone, Copy, Debug, PartialEq, Eq)]
pub struct Hop {
    /// Short channel id.
    pub channel: u64,
    /// Fee.
    pub fee: u64,
    /// Delta.
    pub delta: u16,
}

/// How many entries a field of this type and size has; none unless it is an r.
fn entries_of(kind: u64, size: usize) -> usize {
    if kind == R.into() {
        entries_in(size)
    } else {
        0
    }
}

/// How many entries a field has; none unless it is a usable r.
pub fn route_size(groups: &[u8], kind: u64, start: u64, size: u64) -> Result<usize, Refusal> {
    content(groups, start, size).map(|content| entries_of(kind, content.len()))
}

/// Entry `k` of a field, from 0, with its key at the front of the lent buffer; `None` where there is no such entry.
pub fn route_entry(
    groups: &[u8],
    kind: u64,
    start: u64,
    size: u64,
    k: u64,
    key: &mut [u8],
) -> Result<Option<Hop>, Refusal> {
    let content = content(groups, start, size)?;
    if k >= entries_of(kind, content.len()) as u64 {
        return Ok(None);
    }
    let key = key.get_mut(..KEY).ok_or(Refusal::bare(NO_ROOM))?;
    // An entry lies in eleven blocks of five bytes, beginning up to four bytes into the first.
    let first = k as usize * ENTRY;
    let blocks = &content[first / 5 * 8..];
    let blocks = &blocks[..blocks.len().min(11 * 8)];
    let mut bytes = [0; 11 * 5];
    bech32::put_bytes(blocks, &mut bytes[..bech32::whole_bytes(blocks.len())]);
    let entry = &bytes[first % 5..][..ENTRY];
    key.copy_from_slice(&entry[..KEY]);
    let number = |from: usize, to: usize| entry[from..to].iter().fold(0, |n, &byte| n << 8 | u64::from(byte));
    Ok(Some(Hop { channel: number(33, 41), fee: number(41, 49), delta: number(49, 51) as u16 }))
}

#[cfg(test)]
mod tests {
    use super::*;

    #[test]
    fn which_fields_are_usable() {
        assert!(usable(P, 52) && !usable(P, 51) && !usable(P, 53));
        assert!(usable(H, 52) && !usable(H, 0));
        assert!(usable(N, 53) && !usable(N, 52));
        assert!(usable(X, 0) && usable(X, 12) && !usable(X, 13));
        assert!(usable(C, 0) && usable(C, 12) && !usable(C, 13));
        // 51 bytes are 81.6 groups and 102 are 163.2; one group more keeps the whole bytes.
        let routes: Vec<usize> = (0..200).filter(|&size| usable(R, size)).collect();
        assert_eq!(routes, [82, 83, 164]);
        assert!(!usable(13, 20) && !usable(9, 33));
    }

    #[test]
    fn content_of_a_field() {
        let groups = [9, 31, 28, 1, 2, 40];
        let mut out = [0xa5; 3];
        assert_eq!(field_bytes(&groups, 1, 2, &mut out), Ok(1));
        assert_eq!(out, [0xff, 0xa5, 0xa5]);
        assert_eq!(field_number(&groups, 3, 2), Ok(34));
        assert_eq!(field_number(&groups, 6, 0), Ok(0));
        assert_eq!(field_bytes(&groups, 1, 6, &mut out), Err(Refusal::bare(16)));
        assert_eq!(field_bytes(&groups, u64::MAX, 2, &mut out), Err(Refusal::bare(16)));
        assert_eq!(field_bytes(&groups, 3, 3, &mut []), Err(Refusal::at(34, 5, 0)));
        assert_eq!(field_bytes(&groups, 1, 2, &mut []), Err(Refusal::bare(12)));
        assert_eq!(field_number(&[0; 13], 0, 13), Err(Refusal::bare(38)));
        assert_eq!(field_number(&[31; 12], 0, 12), Ok((1 << 60) - 1));
        let mut mixed = [0; 13];
        mixed[12] = 32;
        assert_eq!(field_number(&mixed, 0, 13), Err(Refusal::at(34, 12, 0)));
    }

    #[test]
    fn entries_of_a_route() {
        let bytes: Vec<u8> = (0..153).collect();
        let mut groups = vec![7; 3 + bech32::groups_for(153)];
        bech32::put_groups(&bytes, &mut groups[3..]);
        let size = groups.len() as u64 - 3;
        let r = R.into();
        assert_eq!(route_size(&groups, r, 3, size), Ok(3));
        for k in 0..3 {
            let mut key = [0xa5; 34];
            let hop = route_entry(&groups, r, 3, size, k, &mut key).unwrap().unwrap();
            let entry = &bytes[51 * k as usize..][..51];
            assert_eq!(key[..33], entry[..33]);
            assert_eq!(key[33], 0xa5);
            assert_eq!(hop.channel.to_be_bytes(), entry[33..41]);
            assert_eq!(hop.fee.to_be_bytes(), entry[41..49]);
            assert_eq!(hop.delta.to_be_bytes(), entry[49..51]);
            assert_eq!(route_entry(&groups, r, 3, size, k, &mut key[..32]), Err(Refusal::bare(12)));
        }
        assert_eq!(route_entry(&groups, r, 3, size, 3, &mut []), Ok(None));
        assert_eq!(route_entry(&groups, r, 3, size, u64::MAX, &mut []), Ok(None));
        for kind in [0, 1, 13, 3 + 256, u64::MAX] {
            assert_eq!(route_size(&groups, kind, 3, size), Ok(0));
            assert_eq!(route_entry(&groups, kind, 3, size, 0, &mut []), Ok(None));
        }
        assert_eq!(route_size(&groups, r, 3, 81), Ok(0));
        assert_eq!(route_entry(&groups, r, 3, 81, 0, &mut []), Ok(None));
        assert_eq!(route_entry(&groups, r, 3, size + 1, 0, &mut []), Err(Refusal::bare(16)));
        groups[200] = 32;
        assert_eq!(route_size(&groups, r, 3, size), Err(Refusal::at(34, 200, 0)));
    }

    #[test]
    fn a_text_in_order() {
        assert_eq!(judge(&[0; 4_097]), Err(Refusal::bare(30)));
        assert_eq!(judge(b"lnbcA\x7f"), Err(Refusal::at(31, 5, 0)));
        assert_eq!(judge(b"lnbcA1"), Err(Refusal::bare(32)));
        assert_eq!(judge(b""), Err(Refusal::bare(33)));
        let mut text = vec![b'b'; 122];
        assert_eq!(judge(&text), Err(Refusal::bare(33)));
        text[0] = b'1';
        assert_eq!(judge(&text), Err(Refusal::bare(33)));
        text[5] = b'1';
        assert_eq!(judge(&text), Err(Refusal::bare(33)));
        text[4] = b'1';
        assert_eq!(judge(&text), Err(Refusal::bare(33)));
        text[5] = b'q';
        assert_eq!(judge(&text), Err(Refusal::at(34, 6, 0)));
        text[6..].fill(b'q');
        assert_eq!(judge(&text), Err(Refusal::bare(35)));
    }
}

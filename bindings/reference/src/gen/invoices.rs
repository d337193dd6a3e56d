//! Amounts, invoices and fields.

use super::{damaged, Random, Rules};
use crate::bech32::{self, Checksum};
use crate::field;

/// The highest number of an amount with a letter, and what it is a multiple of.
pub(super) fn limits(letter: &str) -> (u64, u64) {
    match letter {
        "" => (21_000_000, 1),
        "m" => (21_000_000_000, 1),
        "u" => (21_000_000_000_000, 1),
        "n" => (21_000_000_000_000_000, 1),
        // With p the last digit is 0.
        _ => (9_999_999_999_999_999_990, 10),
    }
}

/// An amount's characters, none for no amount; at times with a fault unless the rules are kept.
pub fn amount(random: &mut Random, rules: Rules) -> Vec<u8> {
    if random.once_in(5) {
        return Vec::new();
    }
    let letter = random.one_of(&["", "m", "u", "n", "p", "p"]);
    let (highest, step) = limits(letter);
    let number = match random.below(6) {
        0 => highest,
        1 => step * (1 + random.below(12) as u64),
        _ => step * (1 + random.wide_number() % (highest / step)),
    };
    let mut text = format!("{number}{letter}").into_bytes();
    if rules == Rules::BrokenAtTimes && random.once_in(3) {
        match random.below(8) {
            0 => text = format!("{}{letter}", highest + 1).into_bytes(),
            1 => text.insert(0, b'0'),
            2 => text.push(random.one_of(b"munpx15MP ~")),
            3 => text = letter.into(),
            4 => text = format!("{}{letter}", 10_000_000_000_000_000_000_u64).into_bytes(),
            5 => text = damaged(random, &text),
            6 => text = format!("{}{}", 1 + random.below(120), random.one_of(&["p", "P"])).into_bytes(),
            _ => text.make_ascii_uppercase(),
        }
    }
    text
}

/// A field's groups: any of the types in a usable size or another.
fn one_field(random: &mut Random, rules: Rules) -> Vec<u8> {
    let any = random.byte() & 31;
    let kind = random.one_of(&[1, 1, 3, 3, 6, 6, 9, 13, 13, 19, 23, 24, 24, any]);
    let mut groups = vec![0; 3 + field::MOST_GROUPS];
    let made = if matches!(kind, 6 | 24) && !random.once_in(8) {
        let bits = 4 + random.below(60);
        field::from_number(kind.into(), random.number() >> bits, &mut groups)
    } else {
        let count = match kind {
            _ if random.once_in(8) => random.below(120),
            1 | 23 => 32,
            19 => 33,
            3 => 51 * (1 + random.below(3)),
            _ => random.below(40),
        };
        field::from_bytes(kind.into(), &random.bytes(count), &mut groups)
    };
    // It always fits.
    groups.truncate(made.unwrap_or(3));
    if random.once_in(6) {
        // A spare group at the end, which no content needs.
        groups.push(random.byte() & 31);
        let size = groups.len() - 3;
        groups[1] = (size / 32) as u8;
        groups[2] = (size % 32) as u8;
    }
    if rules.broken(random) {
        let place = random.below(groups.len());
        groups[place] = random.byte() & 31;
    }
    groups
}

/// Arguments of the invoice writer.
#[derive(Clone, Debug)]
pub struct InvoiceCase {
    /// 1 for lnbc, 2 for lntb.
    pub prefix: u64,
    /// The amount's characters.
    pub amount: Vec<u8>,
    /// Seconds since 1970.
    pub time: u64,
    /// The fields' groups.
    pub fields: Vec<u8>,
    /// The signature's groups.
    pub signature: Vec<u8>,
}

/// The groups of a p field.
fn payment(random: &mut Random) -> Vec<u8> {
    let mut groups = vec![0; 55];
    let hash = random.bytes(32);
    // A hash always fits.
    let _ = field::from_bytes(1, &hash, &mut groups);
    groups
}

/// Arguments for the invoice writer, at times with a fault unless the rules are kept.
pub fn invoice_case(random: &mut Random, rules: Rules) -> InvoiceCase {
    let mut fields = Vec::new();
    let paid = random.below(4);
    for place in 0..=random.below(7).max(paid) {
        if place == paid && !rules.broken(random) {
            fields.extend(payment(random));
        } else {
            fields.extend(one_field(random, rules));
        }
    }
    let mut signature: Vec<u8> = random.bytes(104).iter().map(|byte| byte & 31).collect();
    signature[102] &= 24;
    signature[103] &= 3;
    let mut case = InvoiceCase {
        prefix: 1 + random.below(2) as u64,
        amount: amount(random, rules),
        time: random.number() >> 29,
        fields,
        signature,
    };
    if rules == Rules::BrokenAtTimes {
        match random.below(12) {
            0 => case.prefix = random.one_of(&[0, 3, u64::MAX]),
            1 => case.time = random.one_of(&[(1 << 35) - 1, 1 << 35, u64::MAX]),
            2 => case.signature.truncate(103),
            3 => case.signature.push(0),
            4 => case.signature[103] = random.byte() & 31,
            5 => case.signature[102] = random.byte() & 31,
            6 => case.fields.truncate(random.below(case.fields.len() + 1)),
            7 => case.fields.resize(3_950 + random.below(60), 0),
            8 if !case.fields.is_empty() => {
                let place = random.below(case.fields.len());
                case.fields[place] = random.byte();
            }
            _ => {}
        }
    }
    case
}

/// A text with a right checksum, whatever its human readable part and groups are.
pub fn closed_text(readable: &[u8], groups: &[u8]) -> Vec<u8> {
    let groups = groups.iter().map(|group| group & 31);
    let closing = Checksum::of_readable_part(readable).with(groups.clone()).closing();
    let data = groups.chain(closing).map(bech32::character_of);
    readable.iter().copied().chain([b'1']).chain(data).collect()
}

/// The text of an invoice's parts, put together without judging them.
pub fn text_of(case: &InvoiceCase) -> Vec<u8> {
    let prefix: &[u8] = match case.prefix {
        1 => b"lnbc",
        2 => b"lntb",
        3 => b"lnbcrt",
        _ => b"lntbs",
    };
    let mut time = [0; 7];
    bech32::put_number(case.time, &mut time);
    closed_text(&[prefix, &case.amount].concat(), &[&time, &case.fields[..], &case.signature].concat())
}

/// An invoice's text: valid, with a right checksum over a fault, or damaged.
pub fn invoice_text(random: &mut Random, rules: Rules) -> Vec<u8> {
    let case = invoice_case(random, rules);
    let mut text = text_of(&case);
    if random.once_in(4) {
        text.make_ascii_uppercase();
    }
    if rules == Rules::Kept {
        return text;
    }
    match random.below(12) {
        0 | 1 => text = damaged(random, &text),
        2 => {
            let place = random.below(text.len());
            text[place] = random.one_of(b"1bioqpQPmunL\x20\x7f\x80");
        }
        3 => {
            let place = random.below(text.len() - 1);
            text.swap(place, place + 1);
        }
        4 => text = text[text.len().saturating_sub(115 + random.below(6))..].to_vec(),
        5 => text.resize(4_090 + random.below(12), b'q'),
        6 => {
            let bytes = random.some_bytes(30);
            text.splice(..random.below(6), bytes);
        }
        _ => {}
    }
    text
}

/// A question about a field's content.
#[derive(Clone, Debug)]
pub struct FieldCase {
    /// The lent groups, at times with one above 31.
    pub groups: Vec<u8>,
    /// The field's type, mostly r.
    pub kind: u64,
    /// First group of the content.
    pub start: u64,
    /// Count of its groups.
    pub size: u64,
    /// Entry of the route.
    pub entry: u64,
}

/// A field among groups, or numbers that reach outside them.
pub fn field_case(random: &mut Random) -> FieldCase {
    let count = random.below(400);
    let mut groups: Vec<u8> = random.bytes(count).iter().map(|byte| byte & 31).collect();
    if random.once_in(4) && count > 0 {
        let place = random.below(count);
        groups[place] = random.byte();
    }
    let start = random.below(count / 4 + 1) as u64;
    let size = match random.below(6) {
        0 => random.wide_number(),
        1 => random.one_of(&[82, 83, 164, 245, 246, 327]),
        2 => random.below(14) as u64,
        3 => (count as u64 - start) + random.below(3) as u64,
        _ => random.one_of(&[0, 1, 2, 7, 8, 9, 12, 13, 52, 53]),
    };
    let start = if random.once_in(10) { random.wide_number() } else { start };
    let kind = match random.below(8) {
        0 => random.wide_number(),
        1 => random.below(32) as u64,
        2 => 13,
        _ => 3,
    };
    let entry = if random.once_in(4) { random.wide_number() } else { random.below(4) as u64 };
    FieldCase { groups, kind, start, size, entry }
}

/// A valid invoice of 4,096 characters with as many fields as fit, most of them without content.
pub fn full_invoice() -> Vec<u8> {
    let mut random = Random::new(4_096);
    let mut case = invoice_case(&mut random, Rules::Kept);
    case.prefix = 1;
    case.amount = b"2500u".to_vec();
    case.fields = payment(&mut random);
    while case.fields.len() + 3 <= 4_096 - 10 - 7 - 104 - 6 {
        case.fields.extend([13, 0, 0]);
    }
    // Two spare characters: the amount is spelled longer.
    case.amount = match 4_096 - text_of(&case).len() {
        0 => b"2500u".to_vec(),
        1 => b"25000u".to_vec(),
        _ => b"250000u".to_vec(),
    };
    text_of(&case)
}

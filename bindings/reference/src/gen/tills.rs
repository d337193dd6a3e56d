//! Invoices for the till profile, put together so that they break just the rules that are wanted.

use super::invoices::{invoice_case, invoice_text, limits, text_of, InvoiceCase};
use super::{Random, Rules};
use crate::bech32;
use crate::invoice::{usable, C, D, H, N, NUMBER_GROUPS, P, R, X};
use crate::till::{self, Profile, RULES};

/// So many sets of rules there are.
pub const RULE_SETS: u8 = 1 << RULES;

/// The sets of at most two rules: none, each alone and all pairs.
pub fn at_most_two_rules() -> impl Iterator<Item = u8> {
    (0..RULE_SETS).filter(|set| set.count_ones() <= 2)
}

/// The profile of an invoice that breaks just the rules of a set, whose bit 0 is rule 1.
pub fn profile_of(set: u8) -> Profile {
    let mut profile = Profile::default();
    (1..=RULES as u8).filter(|&rule| has(set, rule)).for_each(|rule| profile.add(rule));
    profile
}

fn has(set: u8, rule: u8) -> bool {
    set >> (rule - 1) & 1 == 1
}

/// A field: its type and its content.
struct Field {
    kind: u8,
    content: Vec<u8>,
}

impl Field {
    /// A field of bytes of its type, in as few groups as hold them.
    fn of_bytes(random: &mut Random, kind: u8) -> Self {
        let count = match kind {
            P | H => 32,
            N => 33,
            R => 51 * (1 + random.below(3)),
            _ => random.below(40),
        };
        let mut content = vec![0; bech32::groups_for(count)];
        bech32::put_groups(&random.bytes(count), &mut content);
        Self { kind, content }
    }

    /// A number that does not begin with a zero group, at times of no groups.
    fn of_number(random: &mut Random, kind: u8) -> Self {
        let count = random.below(NUMBER_GROUPS + 1);
        let mut content = groups(random, count);
        content.iter_mut().take(1).for_each(|first| *first = (*first).max(1));
        Self { kind, content }
    }

    /// A field that no rule is about: of another type, or not usable.
    fn of_no_rule(random: &mut Random) -> Self {
        loop {
            let any = random.byte() & 31;
            let kind = random.one_of(&[P, R, X, N, H, C, 9, any]);
            let any = random.below(120);
            let count = random.one_of(&[0, 13, 51, 52, 53, 54, 81, 84, any]);
            if kind != D && !usable(kind, count) {
                return Self { kind, content: groups(random, count) };
            }
        }
    }

    /// Whether it is of bytes, and of a type that rule 4 is about.
    fn is_of_bytes(&self) -> bool {
        matches!(self.kind, P | D | H | N | R)
    }

    /// Gives a field of bytes padding bits that are not zero, or a spare group; says whether it has place for either.
    fn pad(&mut self, random: &mut Random) -> bool {
        let left = 5 * self.content.len() % 8;
        let may_grow = matches!(self.kind, D | R) && left <= 2;
        if may_grow && (left == 0 || random.once_in(2)) {
            self.content.push(if random.once_in(2) { 0 } else { random.byte() & 31 });
        } else if let Some(last) = self.content.last_mut().filter(|_| left > 0) {
            *last |= 1 + random.below((1 << left.min(5)) - 1) as u8;
        }
        may_grow || left > 0
    }

    /// Puts a few zero groups before a number.
    fn lead_with_zeros(&mut self, random: &mut Random) {
        let zeros = 1 + random.below(3);
        self.content.splice(..0, vec![0; zeros]);
        self.content.truncate(NUMBER_GROUPS);
    }

    fn groups(&self) -> Vec<u8> {
        let size = self.content.len();
        [&[self.kind, (size / 32) as u8, (size % 32) as u8], &self.content[..]].concat()
    }
}

fn groups(random: &mut Random, count: usize) -> Vec<u8> {
    random.bytes(count).iter().map(|byte| byte & 31).collect()
}

/// Changes at least one of the fields that are asked for.
fn change_some(
    random: &mut Random,
    fields: &mut [Field],
    asked: impl Fn(&Field) -> bool,
    mut change: impl FnMut(&mut Field, &mut Random) -> bool,
) {
    let places: Vec<usize> = (0..fields.len()).filter(|&place| asked(&fields[place])).collect();
    loop {
        let place = random.one_of(&places);
        if change(&mut fields[place], random) && random.once_in(2) {
            return;
        }
    }
}

/// The fields of an invoice that breaks just the rules of a set, as far as they are about fields, in any order.
fn fields(random: &mut Random, set: u8) -> Vec<Field> {
    let twice_or_more = |random: &mut Random| 2 + random.below(2);
    let mut fields = Vec::new();
    let payments = if has(set, till::PAYMENT_HASH) { twice_or_more(random) } else { 1 };
    fields.extend((0..payments).map(|_| Field::of_bytes(random, P)));
    let descriptions = if has(set, till::DESCRIPTION) { random.one_of(&[0, 2, 2, 3]) } else { 1 };
    for _ in 0..descriptions {
        let kind = random.one_of(&[D, D, H]);
        fields.push(Field::of_bytes(random, kind));
    }
    let often = if has(set, till::AT_MOST_ONCE) { 1 + random.below(7) } else { 0 };
    for (place, kind) in [X, C, N].into_iter().enumerate() {
        let count = if often >> place & 1 == 1 { twice_or_more(random) } else { random.below(2) };
        let make = if kind == N { Field::of_bytes } else { Field::of_number };
        fields.extend((0..count).map(|_| make(random, kind)));
    }
    fields.extend((0..random.below(3)).map(|_| Field::of_bytes(random, R)));
    if has(set, till::PADDING) {
        change_some(random, &mut fields, Field::is_of_bytes, Field::pad);
    }
    if has(set, till::LEADING_ZEROS) {
        let is_number = |field: &Field| matches!(field.kind, X | C);
        if !fields.iter().any(is_number) {
            let kind = random.one_of(&[X, C]);
            fields.push(Field::of_number(random, kind));
        }
        change_some(random, &mut fields, is_number, |field, random| {
            field.lead_with_zeros(random);
            true
        });
    }
    fields.extend((0..random.below(3)).map(|_| Field::of_no_rule(random)));
    for place in (1..fields.len()).rev() {
        fields.swap(place, random.below(place + 1));
    }
    fields
}

/// An amount that has a shorter spelling, or one that has none, at times no amount.
fn spelled_amount(random: &mut Random, shorter: bool) -> Vec<u8> {
    if !shorter && random.once_in(5) {
        return Vec::new();
    }
    let letter = random.one_of(if shorter { &["m", "u", "n", "p"] } else { &["", "m", "u", "n", "p"] });
    let (highest, step) = limits(letter);
    let few = random.below(12) as u64;
    let any = if random.once_in(3) { few } else { random.wide_number() };
    let number = if shorter {
        1_000 * (1 + any % (highest / 1_000))
    } else {
        let number = step * (1 + any % (highest / step));
        // A thousand of a unit is one of the next.
        if letter.is_empty() || number % 1_000 > 0 {
            number
        } else {
            number - step
        }
    };
    format!("{number}{letter}").into_bytes()
}

/// Parts of an invoice that breaks just the rules of a set.
pub fn till_case(random: &mut Random, set: u8) -> InvoiceCase {
    let fields = fields(random, set).iter().flat_map(Field::groups).collect();
    let amount = spelled_amount(random, has(set, till::AMOUNT));
    InvoiceCase { fields, amount, ..invoice_case(random, Rules::Kept) }
}

/// An invoice that breaks just the rules of a set, in either case.
pub fn till_invoice(random: &mut Random, set: u8) -> Vec<u8> {
    let mut text = text_of(&till_case(random, set));
    if random.once_in(3) {
        text.make_ascii_uppercase();
    }
    text
}

/// An invoice that would break the rules of a set, were it not refused: a part or a character of it is wrong.
pub fn refused_till(random: &mut Random, set: u8) -> Vec<u8> {
    let mut case = till_case(random, set);
    match random.below(11) {
        0 => case.fields = Field::of_no_rule(random).groups(),
        1 => case.signature[103] |= 4,
        2 => drop(case.fields.pop()),
        3 => case.amount = random.one_of(&["15p", "0", "01m", "21000001", "1k", "m"]).into(),
        4 => case.prefix = 3,
        fault => {
            let mut text = text_of(&case);
            let place = text.len() - 1 - random.below(100);
            match fault {
                5 => text[place] = if text[place] == b'q' { b'p' } else { b'q' },
                6 => text[place] = b'b',
                7 => text = text[text.len() - random.below(118)..].to_vec(),
                8 => text[..4].make_ascii_uppercase(),
                9 => text[place] = b' ',
                _ => text.resize(4_097, b'q'),
            }
            return text;
        }
    }
    text_of(&case)
}

/// A text for the till profile: an invoice that breaks any of the rules, one that is refused, or any.
pub fn till_text(random: &mut Random) -> Vec<u8> {
    let set = random.byte() % RULE_SETS;
    match random.below(4) {
        0 => refused_till(random, set),
        1 => {
            let rules = Rules::any(random);
            invoice_text(random, rules)
        }
        _ => till_invoice(random, set),
    }
}

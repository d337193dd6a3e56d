//! The till profile: which rules an invoice breaks, what is refused, and the words of each rule.
mod common;

use common::refused;
use tockplover::invoice::{self, field_type, Prefix};
use tockplover::till::{profile, Rule};

/// BOLT 11's invoice for a cup of coffee.
const COFFEE: &[u8] =
    b"lnbc2500u1pvjluezpp5qqqsyqcyq5rqwzqfqqqsyqcyq5rqwzqfqqqsyqcyq5rqwzqfqypqdq5xysxxatsyp3k7enxv4jsxqzpuaztrnwngzn3kdzw\
5hydlzf03qdgm2hdq27cqv3agm2awhz5se903vruatfhq77w3ls4evs3ch9zw97j25emudupq63nyw24cg27h2rspfj9srp";

/// A field of any groups.
fn field(kind: u8, content: &[u8]) -> Vec<u8> {
    let size = content.len();
    [&[kind, (size / 32) as u8, (size % 32) as u8], content].concat()
}

/// A field of zero groups.
fn zeros(kind: u8, size: usize) -> Vec<u8> {
    field(kind, &vec![0; size])
}

/// A payment hash and a description, which keep all rules.
fn clean() -> Vec<u8> {
    [zeros(field_type::PAYMENT_HASH, 52), zeros(field_type::DESCRIPTION, 0)].concat()
}

/// The text of an invoice.
fn text(amount: &[u8], fields: &[u8]) -> Vec<u8> {
    let mut out = [0; invoice::MOST];
    invoice::write(Prefix::Lnbc, amount, 0, fields, &[0; 104], &mut out)
        .unwrap()
        .to_vec()
}

/// The rules that an invoice breaks, in upper case too.
fn rules(text: &[u8]) -> Vec<Rule> {
    let broken = profile(text).unwrap();
    assert_eq!(profile(&text.to_ascii_uppercase()), Ok(broken));
    let rules: Vec<Rule> = broken.rules().collect();
    assert!(rules.is_sorted_by(|a, b| a.number() < b.number()));
    assert_eq!(broken.is_clean(), rules.is_empty());
    for rule in Rule::ALL {
        assert_eq!(broken.contains(rule), rules.contains(&rule));
    }
    rules
}

/// The rules that are broken by a field beside a payment hash and a description.
fn broken_beside(more: &[u8]) -> Vec<Rule> {
    rules(&text(b"", &[&clean(), more].concat()))
}

#[test]
fn a_clean_invoice() {
    assert_eq!(rules(COFFEE), []);
    assert_eq!(rules(&text(b"", &clean())), []);
    assert_eq!(rules(&text(b"1m", &clean())), []);
}

#[test]
fn each_rule() {
    let hash = zeros(field_type::PAYMENT_HASH, 52);
    assert_eq!(broken_beside(&hash), [Rule::PaymentHash]);
    assert_eq!(broken_beside(&zeros(field_type::DESCRIPTION, 0)), [Rule::Description]);
    assert_eq!(broken_beside(&zeros(field_type::DESCRIPTION_HASH, 52)), [Rule::Description]);
    assert_eq!(rules(&text(b"", &hash)), [Rule::Description]);
    for (kind, size) in [(field_type::EXPIRY, 0), (field_type::DELTA, 0), (field_type::PAYEE, 53)] {
        assert_eq!(broken_beside(&zeros(kind, size)), []);
        assert_eq!(broken_beside(&zeros(kind, size).repeat(2)), [Rule::AtMostOnce]);
        assert_eq!(broken_beside(&zeros(kind, size).repeat(3)), [Rule::AtMostOnce]);
    }
    for kind in [field_type::EXPIRY, field_type::DELTA] {
        assert_eq!(broken_beside(&field(kind, &[0])), [Rule::LeadingZeros]);
        assert_eq!(broken_beside(&field(kind, &[0, 1])), [Rule::LeadingZeros]);
        assert_eq!(broken_beside(&field(kind, &[1, 0])), []);
    }
    for (amount, wanted) in [
        ("1000u", &[Rule::Amount][..]),
        ("1000m", &[Rule::Amount]),
        ("1000n", &[Rule::Amount]),
        ("1000p", &[Rule::Amount]),
        ("10000p", &[Rule::Amount]),
        ("1m", &[]),
        ("10n", &[]),
        ("100p", &[]),
        ("21000000", &[]),
    ] {
        assert_eq!(rules(&text(amount.as_bytes(), &clean())), wanted, "{amount}");
    }
}

#[test]
fn padding_and_spare_groups() {
    // The type, its groups, and how many bits they have behind the last whole byte.
    for (kind, size, bits) in [
        (field_type::PAYMENT_HASH, 52, 4),
        (field_type::DESCRIPTION_HASH, 52, 4),
        (field_type::PAYEE, 53, 1),
        (field_type::ROUTE, 82, 2),
        (field_type::ROUTE, 164, 4),
        (field_type::DESCRIPTION, 2, 2),
        (field_type::DESCRIPTION, 4, 4),
        (field_type::DESCRIPTION, 5, 1),
        (field_type::DESCRIPTION, 7, 3),
        (field_type::DESCRIPTION, 8, 0),
    ] {
        for bit in 0..5 {
            let mut content = vec![0; size];
            content[size - 1] = 1 << bit;
            let broken = profile(&text(b"", &[clean(), field(kind, &content)].concat())).unwrap();
            assert_eq!(
                broken.contains(Rule::Padding),
                bit < bits,
                "type {kind} of {size} groups, bit {bit}"
            );
        }
    }
    assert_eq!(broken_beside(&zeros(field_type::ROUTE, 83)), [Rule::Padding]);
    for size in 0..24 {
        let fields = [zeros(field_type::PAYMENT_HASH, 52), zeros(field_type::DESCRIPTION, size)].concat();
        let broken = profile(&text(b"", &fields)).unwrap();
        assert_eq!(broken.is_clean(), ![1, 3, 6].contains(&(size % 8)), "a d of {size} groups");
    }
}

#[test]
fn fields_that_are_not_usable_are_in_no_rule() {
    for (kind, size) in [
        (field_type::PAYMENT_HASH, 51),
        (field_type::PAYMENT_HASH, 53),
        (field_type::DESCRIPTION_HASH, 53),
        (field_type::PAYEE, 52),
        (field_type::EXPIRY, 13),
        (field_type::DELTA, 13),
        (field_type::ROUTE, 81),
        (field_type::ROUTE, 165),
        (field_type::FALLBACK, 33),
        (0, 1),
    ] {
        let mut content = vec![0; size];
        content[size - 1] = 31;
        assert_eq!(broken_beside(&field(kind, &content).repeat(2)), [], "type {kind} of {size} groups");
    }
}

#[test]
fn all_rules_at_once() {
    let mut hash = zeros(field_type::PAYMENT_HASH, 52);
    let fields = [hash.clone(), field(field_type::EXPIRY, &[0]).repeat(2)].concat();
    hash[54] = 1;
    assert_eq!(rules(&text(b"1000u", &[fields, hash].concat())), Rule::ALL);
}

#[test]
fn what_is_refused_has_the_reader_s_refusal() {
    let mistyped = [&COFFEE[..COFFEE.len() - 1], b"q"].concat();
    let outside = [&COFFEE[..COFFEE.len() - 1], b"b"].concat();
    let both_cases = [b"LN", &COFFEE[2..]].concat();
    for (text, wanted) in [
        (&mistyped[..], (35, 0, 0)),
        (&outside, (34, COFFEE.len() - 1, 0)),
        (&both_cases, (32, 0, 0)),
        (b"lnbc 1", (31, 4, 0)),
        (b"lnbc1", (33, 0, 0)),
        (b"", (33, 0, 0)),
        (&[b'q'; 4_097], (30, 0, 0)),
    ] {
        assert_eq!(refused(profile(text)), wanted);
        assert_eq!(refused(invoice::read(text, &mut [0; 4_096], &mut [0; 4_096])), wanted);
    }
}

#[test]
fn a_rule_is_its_number_and_its_words() {
    assert_eq!(Rule::ALL.map(Rule::number), [1, 2, 3, 4, 5, 6]);
    for rule in Rule::ALL {
        assert_eq!(rule.to_string(), format!("rule {}: {}", rule.number(), rule.meaning()));
        assert!(!rule.advice().is_empty());
    }
}

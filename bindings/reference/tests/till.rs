//! The till profile: invoices that break each rule and those close to it, spellings of amounts tried one by one, and all
//! sets of rules.

use std::collections::BTreeMap;

use tockplover_reference::gen::{self, Random, Rules};
use tockplover_reference::invoice::{self, C, D, H, N, P, R, X};
use tockplover_reference::money::{self, Msat};
use tockplover_reference::till::{self, Profile};
use tockplover_reference::Refusal;

/// BOLT 11's invoice for a cup of coffee.
const COFFEE: &[u8] =
    b"lnbc2500u1pvjluezpp5qqqsyqcyq5rqwzqfqqqsyqcyq5rqwzqfqqqsyqcyq5rqwzqfqypqdq5xysxxatsyp3k7enxv4jsx\
qzpuaztrnwngzn3kdzw5hydlzf03qdgm2hdq27cqv3agm2awhz5se903vruatfhq77w3ls4evs3ch9zw97j25emudupq63nyw24cg27h2rspfj9srp";

/// A field of these groups.
fn field(kind: u8, content: &[u8]) -> Vec<u8> {
    let size = content.len();
    [&[kind, (size / 32) as u8, (size % 32) as u8], content].concat()
}

/// A field of zero groups, the last of which is given.
fn ending(kind: u8, size: usize, last: u8) -> Vec<u8> {
    let mut content = vec![0; size];
    content[size - 1] = last;
    field(kind, &content)
}

/// A field of zero groups.
fn zeros(kind: u8, size: usize) -> Vec<u8> {
    field(kind, &vec![0; size])
}

/// A p that is usable and keeps the rules.
fn payment() -> Vec<u8> {
    zeros(P, 52)
}

/// An empty d.
fn description() -> Vec<u8> {
    zeros(D, 0)
}

/// An invoice of an amount and fields, with zeros for time and signature.
fn text(amount: &str, fields: &[Vec<u8>]) -> Vec<u8> {
    gen::closed_text(format!("lnbc{amount}").as_bytes(), &[&[0; 7], &fields.concat()[..], &[0; 104]].concat())
}

/// The rules that an accepted invoice breaks, in upper case too.
fn broken(text: &[u8]) -> Vec<u8> {
    let Profile { count, rules } = till::profile(text).unwrap();
    assert_eq!(till::profile(&text.to_ascii_uppercase()), Ok(Profile { count, rules }));
    assert!(rules[..count].is_sorted_by(|a, b| a < b) && rules[..count].iter().all(|rule| (1..=6).contains(rule)));
    assert!(rules[count..].iter().all(|&rule| rule == 0));
    rules[..count].to_vec()
}

/// The rules that these fields break, whatever their order.
fn broken_by(fields: &[Vec<u8>]) -> Vec<u8> {
    let rules = broken(&text("", fields));
    let mut turned = fields.to_vec();
    turned.reverse();
    assert_eq!(broken(&text("", &turned)), rules);
    rules
}

/// The rules that a field breaks beside a p and a d.
fn broken_beside(more: Vec<u8>) -> Vec<u8> {
    broken_by(&[payment(), description(), more])
}

/// The rules that an amount breaks.
fn broken_in(amount: &str) -> Vec<u8> {
    broken(&text(amount, &[payment(), description()]))
}

#[test]
fn a_clean_invoice() {
    assert_eq!(till::profile(COFFEE), Ok(Profile { count: 0, rules: [0; 6] }));
    assert_eq!(broken(COFFEE), []);
    assert_eq!(broken_by(&[payment(), description()]), []);
    let one_of_each = [payment(), zeros(H, 52), zeros(X, 0), field(C, &[9]), zeros(N, 53), zeros(R, 82), zeros(R, 164)];
    assert_eq!(broken_by(&one_of_each), []);
}

#[test]
fn two_payment_hashes() {
    assert_eq!(broken_beside(payment()), [1]);
    assert_eq!(broken_by(&[payment(), payment(), payment(), description()]), [1]);
    for size in [0, 1, 51, 53, 1_023] {
        assert_eq!(broken_beside(zeros(P, size)), [], "an unusable p of {size} groups");
        assert_eq!(broken_by(&[zeros(P, size), payment(), payment(), description()]), [1]);
    }
}

#[test]
fn two_descriptions_or_none() {
    let h = || zeros(H, 52);
    assert_eq!(broken_by(&[payment(), description()]), []);
    assert_eq!(broken_by(&[payment(), field(D, &[1, 12])]), []);
    assert_eq!(broken_by(&[payment(), h()]), []);
    assert_eq!(broken_by(&[payment()]), [2]);
    for two in [[description(), h()], [description(), description()], [h(), h()], [description(), field(D, &[1, 12])]] {
        assert_eq!(broken_by(&[&[payment()], &two[..]].concat()), [2]);
    }
    assert_eq!(broken_by(&[payment(), description(), h(), h()]), [2]);
    for size in [0, 51, 53] {
        assert_eq!(broken_by(&[payment(), zeros(H, size)]), [2], "an unusable h of {size} groups");
        assert_eq!(broken_beside(zeros(H, size)), []);
    }
}

#[test]
fn two_numbers_or_keys() {
    let number = |kind| field(kind, &[1, 0]);
    for (usable, unusable) in [
        (number(X), zeros(X, 13)),
        (number(C), zeros(C, 13)),
        (zeros(N, 53), zeros(N, 52)),
        (zeros(X, 0), zeros(X, 99)),
    ] {
        let with = |more: &[&Vec<u8>]| {
            let more = more.iter().map(|field| field.to_vec());
            broken_by(&[payment(), description(), usable.clone()].into_iter().chain(more).collect::<Vec<_>>())
        };
        assert_eq!(with(&[]), []);
        assert_eq!(with(&[&usable]), [3]);
        assert_eq!(with(&[&usable, &usable]), [3]);
        assert_eq!(with(&[&unusable, &unusable]), []);
    }
    let each = [number(X), number(C), zeros(N, 53)];
    assert_eq!(broken_by(&[&[payment(), description()], &each[..]].concat()), []);
    assert_eq!(broken_by(&[&[payment(), description()], &each[..], &each[..]].concat()), [3]);
    // Other types may stand as often as they like.
    assert_eq!(broken_by(&[payment(), description(), zeros(R, 82), zeros(R, 82), zeros(9, 1), zeros(9, 1)]), []);
}

#[test]
fn spare_groups() {
    for size in 0..=64 {
        let wanted = if [1, 3, 6].contains(&(size % 8)) { vec![4] } else { vec![] };
        assert_eq!(broken_by(&[payment(), zeros(D, size)]), wanted, "a d of {size} groups");
    }
    assert_eq!(broken_beside(zeros(R, 82)), []);
    assert_eq!(broken_beside(zeros(R, 83)), [4]);
    assert_eq!(broken_beside(zeros(R, 164)), []);
    // Three entries are 245 groups, and one more keeps the whole bytes.
    assert_eq!(broken_beside(zeros(R, 245)), []);
    assert_eq!(broken_beside(zeros(R, 246)), [4]);
    for size in [81, 84, 163, 165, 244, 247] {
        assert_eq!(broken_beside(zeros(R, size)), [], "an unusable r of {size} groups");
    }
}

#[test]
fn padding_bits() {
    // The type, its groups, and how many bits they have behind the last whole byte.
    let padded = [
        (P, 52, 4),
        (H, 52, 4),
        (N, 53, 1),
        (R, 82, 2),
        (R, 164, 4),
        (R, 245, 1),
        (D, 5, 1),
        (D, 2, 2),
        (D, 7, 3),
        (D, 4, 4),
        (D, 13, 1),
        (D, 1_020, 4),
        (D, 8, 0),
    ];
    for (kind, size, bits) in padded {
        assert_eq!(5 * size % 8, bits);
        for last in 0..32 {
            let padded = ending(kind, size, last);
            let fields = match kind {
                P => vec![padded, description()],
                D | H => vec![payment(), padded],
                _ => vec![payment(), description(), padded],
            };
            let wanted = if last % (1 << bits) == 0 { vec![] } else { vec![4] };
            assert_eq!(broken_by(&fields), wanted, "type {kind} of {size} groups that end in {last}");
        }
    }
    for (kind, size) in [(P, 51), (P, 53), (H, 51), (N, 52), (N, 54), (R, 81), (R, 84), (9, 52), (0, 1), (31, 3)] {
        assert_eq!(broken_beside(ending(kind, size, 31)), [], "type {kind} of {size} groups");
    }
    // All fields are judged, not the first alone.
    assert_eq!(broken_by(&[payment(), ending(P, 52, 1), description()]), [1, 4]);
    assert_eq!(broken_by(&[payment(), description(), zeros(R, 82), ending(R, 82, 1)]), [4]);
    // What stands in the last group before the padding, and in other groups, is content.
    assert_eq!(broken_by(&[payment(), field(D, &[31, 28])]), []);
    assert_eq!(broken_by(&[payment(), field(H, &[31; 51].iter().copied().chain([16]).collect::<Vec<_>>())]), []);
}

#[test]
fn leading_zeros() {
    for kind in [X, C] {
        for clean in [&[][..], &[1], &[31], &[1, 0], &[1; 12], &[1, 0, 0, 0, 0, 0, 0, 0, 0, 0, 0, 0], &[0; 13]] {
            assert_eq!(broken_beside(field(kind, clean)), [], "{clean:?}");
        }
        for leading in [&[0][..], &[0, 0], &[0, 1], &[0; 12], &[0, 1, 1, 1, 1, 1, 1, 1, 1, 1, 1, 1]] {
            assert_eq!(broken_beside(field(kind, leading)), [5], "{leading:?}");
        }
        assert_eq!(broken_by(&[payment(), description(), field(kind, &[1]), field(kind, &[0, 1])]), [3, 5]);
    }
    assert_eq!(broken_by(&[payment(), description(), field(X, &[1]), field(C, &[0])]), [5]);
    // No padding is looked for in a number, and no leading zero in others.
    assert_eq!(broken_beside(field(X, &[31, 31, 31])), []);
    assert_eq!(broken_by(&[payment(), field(D, &[0, 0])]), []);
}

#[test]
fn spelled_amounts() {
    let kept = [
        "",
        "1",
        "10",
        "1000",
        "21000000",
        "1m",
        "10m",
        "100m",
        "1001m",
        "2500u",
        "1u",
        "100u",
        "20999999999999999n",
        "1n",
        "10n",
        "100n",
        "10p",
        "100p",
        "990p",
        "1010p",
        "9999999999999999990p",
        "20m",
    ];
    for amount in kept {
        assert_eq!(broken_in(amount), [], "{amount}");
    }
    let longer = [
        "1000m",
        "1000u",
        "1000n",
        "1000p",
        "10000p",
        "20000u",
        "25000000u",
        "1000000u",
        "21000000000m",
        "2000000000n",
        "1000000000000000000p",
        "21000000000000000n",
    ];
    for amount in longer {
        assert_eq!(broken_in(amount), [6], "{amount}");
    }
}

#[test]
fn all_rules_at_once() {
    let fields = [payment(), ending(P, 52, 1), field(X, &[0]), zeros(X, 0)];
    assert_eq!(broken(&text("1000u", &fields)), [1, 2, 3, 4, 5, 6]);
}

#[test]
fn what_is_refused_has_no_profile() {
    let clean = text("1m", &[payment(), description()]);
    let mistyped = [&clean[..clean.len() - 1], b"!"].concat();
    assert_eq!(till::profile(&mistyped), Err(Refusal::at(34, clean.len() - 1, 0)));
    assert_eq!(till::profile(&clean[1..]), Err(Refusal::bare(35)));
    assert_eq!(till::profile(b""), Err(Refusal::bare(33)));
    assert_eq!(till::profile(&[b'q'; 4_097]), Err(Refusal::bare(30)));
    // Rules that would be broken do not matter.
    let two_descriptions = [description(), description()];
    assert_eq!(till::profile(&text("1000u", &two_descriptions)), Err(Refusal::bare(40)));
    assert_eq!(till::profile(&text("15p", &[payment(), payment()])), Err(Refusal::bare(37)));
}

/// The letters of the units.
const LETTERS: [&str; 5] = ["", "m", "u", "n", "p"];

/// Whether an allowed spelling has fewer characters, for each amount of up to five digits: all such spellings are read,
/// and what is shorter than one of them is among them.
#[test]
fn every_short_spelling() {
    let mut spellings = BTreeMap::<Msat, Vec<String>>::new();
    for number in 1..=99_999_u64 {
        for letter in LETTERS {
            let spelling = format!("{number}{letter}");
            if let Ok(msat) = money::read_amount(spelling.as_bytes()) {
                spellings.entry(msat).or_default().push(spelling);
            }
        }
    }
    let mut longer = 0;
    for same in spellings.values() {
        let shortest = same.iter().map(String::len).min().unwrap();
        for amount in same {
            let wanted = if amount.len() > shortest { vec![6] } else { vec![] };
            longer += wanted.len();
            assert_eq!(broken_in(amount), wanted, "{amount}");
        }
    }
    assert!(longer > 300, "{longer}");
}

/// The same for amounts of any length: in each unit the number next to the amount is the only one that can spell it.
#[test]
fn every_unit_of_long_amounts() {
    let mut random = Random::new(21);
    let units = [1_000_000_000_000_u128, 1_000_000_000, 1_000_000, 1_000, 1];
    let mut longer = 0;
    for _ in 0..20_000 {
        let any = String::from_utf8(gen::amount(&mut random, Rules::Kept)).unwrap();
        let zeros = "0".repeat(random.below(8));
        let letter = any.find(|c: char| !c.is_ascii_digit()).unwrap_or(any.len());
        let amount = format!("{}{zeros}{}", &any[..letter], &any[letter..]);
        let Ok(msat) = money::read_amount(amount.as_bytes()) else {
            continue;
        };
        let tenths = u128::from(msat.0) * 10;
        let spellings = LETTERS.iter().zip(units).map(|(letter, unit)| format!("{}{letter}", tenths / unit));
        let same = spellings.filter(|spelling| money::read_amount(spelling.as_bytes()) == Ok(msat));
        let shorter = same.filter(|spelling| spelling.len() < amount.len()).count();
        longer += shorter.min(1);
        assert_eq!(broken_in(&amount), if shorter > 0 { vec![6] } else { vec![] }, "{amount}");
    }
    assert!(longer > 1_000, "{longer}");
}

/// What the profile is by the words of document 02 (vi), each rule with a look at all rows of the reader's index.
fn by_words(text: &[u8]) -> Result<Vec<u8>, Refusal> {
    let (mut groups, mut index) = ([0; 4_096], [0; 4_096]);
    let read = invoice::read(text, &mut groups, &mut index)?;
    let fields: Vec<(u8, &[u8])> = index[..3 * read.fields]
        .chunks(3)
        .map(|row| (row[0] as u8, &groups[row[1] as usize..][..row[2] as usize]))
        .filter(|(kind, content)| *kind == D || invoice::usable(*kind, content.len()))
        .collect();
    let of = |kinds: &'static [u8]| fields.iter().filter(move |(kind, _)| kinds.contains(kind));
    let bits = |content: &[u8]| -> Vec<bool> {
        content.iter().flat_map(|group| (0..5).rev().map(move |bit| group >> bit & 1 == 1)).collect()
    };
    let padded = |content: &[u8]| {
        let bits = bits(content);
        let left = &bits[bits.len() / 8 * 8..];
        left.len() >= 5 || left.contains(&true)
    };
    let amount = &text[read.amount.start..read.amount.end()];
    let shorter = |msat: Msat| {
        let units = [1_000_000_000_000_u128, 1_000_000_000, 1_000_000, 1_000, 1];
        let tenths = u128::from(msat.0) * 10;
        LETTERS.iter().zip(units).any(|(letter, unit)| {
            let spelling = format!("{}{letter}", tenths / unit);
            money::read_amount(spelling.as_bytes()) == Ok(msat) && spelling.len() < amount.len()
        })
    };
    let rules = [
        of(&[P]).count() != 1,
        of(&[D, H]).count() != 1,
        [&[X], &[C], &[N]].into_iter().any(|kind| of(kind).count() > 1),
        of(&[P, H, N, R, D]).any(|(_, content)| padded(content)),
        of(&[X, C]).any(|(_, content)| content.first() == Some(&0)),
        read.msat.is_some_and(shorter),
    ];
    Ok((1..).zip(rules).filter(|(_, broken)| *broken).map(|(rule, _)| rule).collect())
}

/// The answer in the same form.
fn told(text: &[u8]) -> Result<Vec<u8>, Refusal> {
    till::profile(text).map(|Profile { count, rules }| rules[..count].to_vec())
}

#[test]
fn all_sets_of_rules() {
    for set in 0..gen::RULE_SETS {
        let mut random = Random::new(set.into());
        let profile = gen::profile_of(set);
        for _ in 0..300 {
            let text = gen::till_invoice(&mut random, set);
            assert_eq!(till::profile(&text), Ok(profile));
            assert_eq!(by_words(&text), told(&text));
        }
    }
    let sets: Vec<u8> = gen::at_most_two_rules().collect();
    assert_eq!(sets.len(), 1 + 6 + 15);
}

#[test]
fn any_texts() {
    let mut random = Random::new(22);
    let mut refused = BTreeMap::<u8, usize>::new();
    for _ in 0..20_000 {
        let text = gen::till_text(&mut random);
        assert_eq!(told(&text), by_words(&text));
        assert_eq!(told(&text).is_ok(), invoice::judge(&text).is_ok());
        let set = random.byte() % gen::RULE_SETS;
        let refusal = till::profile(&gen::refused_till(&mut random, set)).unwrap_err();
        *refused.entry(refusal.number).or_default() += 1;
    }
    assert!(refused.keys().copied().eq(30..=40), "{refused:?}");
}

#[test]
fn a_full_invoice() {
    let text = gen::full_invoice();
    assert_eq!((text.len(), told(&text)), (4_096, by_words(&text)));
    assert_eq!(told(&text), Ok(vec![2, 6]));
}

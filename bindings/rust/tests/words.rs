//! The words of all numbers, held to docs/refusals.txt and docs/rules.txt.
use std::collections::HashMap;

use tockplover::till::Rule;
use tockplover::{bigsize, invoice, message, numbers, stream};

const LIST: &str = include_str!("../../../docs/refusals.txt");
const RULES: &str = include_str!("../../../docs/rules.txt");

/// The list's meaning and advice of each number.
fn listed() -> HashMap<u8, (&'static str, &'static str)> {
    words_in(LIST)
}

/// A list's meaning and advice of each number.
fn words_in(list: &'static str) -> HashMap<u8, (&'static str, &'static str)> {
    list.lines()
        .map(|line| {
            let columns: Vec<_> = line.split('\t').collect();
            let [number, meaning, advice] = columns[..] else { panic!("{line}") };
            (number.parse().unwrap(), (meaning, advice))
        })
        .collect()
}

#[test]
fn every_number_has_the_words_of_the_list() {
    let list = listed();
    assert_eq!(list.len(), LIST.lines().count());
    for number in 0..=255 {
        let words = list.get(&number).copied().unwrap_or(("no number of the list", ""));
        assert_eq!((numbers::meaning(number), numbers::advice(number)), words, "{number}");
    }
}

#[test]
fn every_rule_has_the_words_of_its_list() {
    let list = words_in(RULES);
    assert_eq!(RULES.lines().count(), Rule::ALL.len());
    for rule in Rule::ALL {
        assert_eq!((rule.meaning(), rule.advice()), list[&rule.number()]);
    }
}

#[test]
fn no_two_numbers_have_the_same_meaning() {
    let meanings: std::collections::HashSet<_> = listed().into_values().map(|words| words.0).collect();
    assert_eq!(meanings.len(), LIST.lines().count());
}

#[test]
fn a_refusal_has_the_words_of_its_number() {
    let refusal = stream::count(&[], 0, &[0x12, 0]).unwrap_err();
    assert_eq!((refusal.meaning(), refusal.advice()), listed()[&7]);
}

/// A refusal as it is written.
fn text<T>(answer: Result<T, tockplover::Refusal>) -> String {
    let refusal = answer.err().unwrap();
    let written = refusal.to_string();
    let (front, meaning) = written.split_once(": ").unwrap();
    assert_eq!(meaning, refusal.meaning());
    front.to_string()
}

#[test]
fn what_is_written_of_a_record_has_its_place_and_type() {
    assert_eq!(text(stream::count(&[], 0, &[1, 0, 0, 0])), "refused 3 at 2 type 0");
    assert_eq!(text(stream::count(&[], 0, &[0, 0])), "refused 7 at 0 type 0");
    assert_eq!(text(stream::count(&[], 0, &[1, 0, 0xfd])), "refused 1 at 2 missing 2");
    let inside = [0, 1, 5, 0];
    assert_eq!(
        text(stream::write(&inside, 0, &[1, 0, 1], &[0xfd], &mut [0; 9])),
        "refused 1 at 0 type 1 missing 2"
    );
    assert_eq!(text(message::read(&[0, 20], &mut [])), "refused 22 at 0 type 20");
}

#[test]
fn what_is_written_of_others_has_no_type() {
    assert_eq!(text(bigsize::read(&[0xfd])), "refused 1 at 0 missing 2");
    assert_eq!(text(bigsize::read(&[0xfd, 0, 1])), "refused 2 at 0");
    assert_eq!(text(bigsize::read(&[])), "refused 13 missing 1");
    assert_eq!(text(bigsize::write(0, &mut [])), "refused 12");
    assert_eq!(text(stream::count(&[1], 0, &[])), "refused 60");
    assert_eq!(text(invoice::read(b"lnbc 1", &mut [], &mut [])), "refused 31 at 4");
    assert_eq!(text(invoice::read(b"lnbc1", &mut [], &mut [])), "refused 33");
}

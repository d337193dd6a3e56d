//! Month-end figures: what a run of books comes to, and when it ends.
mod common;

use common::refused;
use tockplover::invoice;
use tockplover::month::{decimal, Figures, Row, BOOKS_MOST, PAIRS_MOST};

/// A section: its count, and each entry behind its two-byte length.
fn section(heads: &[&[u8]], entries: &[&[u8]]) -> Vec<u8> {
    let mut section = (entries.len() as u16).to_be_bytes().to_vec();
    for (head, entry) in heads.iter().zip(entries) {
        section.extend([head, &(entry.len() as u16).to_be_bytes()[..], entry].concat());
    }
    section
}

/// A book with a table of at most 255 rows, streams in namespace 0, and invoices.
fn book(table: &[u64], streams: &[&[u8]], invoices: &[&[u8]]) -> Vec<u8> {
    let mut book = vec![0, (table.len() / 4) as u8];
    book.extend(table.iter().flat_map(|number| number.to_be_bytes()));
    book.extend(section(&vec![&[0][..]; streams.len()], streams));
    book.extend([0, 0]);
    book.extend(section(&vec![&[][..]; invoices.len()], invoices));
    book
}

/// A stream of so many records without a value, of the odd types from 301 on.
fn odd_types(records: u16) -> Vec<u8> {
    (0..records)
        .flat_map(|record| [&[253], &(301 + 2 * record).to_be_bytes()[..], &[0]].concat())
        .collect()
}

/// An invoice of an amount, signed with zeros.
fn invoice_of(amount: &[u8]) -> Vec<u8> {
    let (mut field, mut out) = ([0; 100], [0; 400]);
    let fields = invoice::field_from_bytes(1, &[0; 32], &mut field).unwrap();
    let text = invoice::write(invoice::Prefix::Lnbc, amount, 0, fields, &[0; 104], &mut out);
    text.unwrap().to_vec()
}

/// The figures after an accepted book.
fn with(figures: Figures, book: &[u8]) -> Figures {
    let (figures, answer) = figures.add(book);
    assert_eq!(answer, Ok(()));
    figures
}

/// A row's namespace, its type and its five numbers.
fn told(row: Row) -> (u64, u64, [u64; 5]) {
    let numbers = [row.known, row.known_bytes, row.passed_over, row.passed_over_bytes, row.frame_bytes];
    (row.namespace, row.kind, numbers)
}

#[test]
fn records() {
    let streams: [&[u8]; 3] = [&[1, 1, 42, 3, 2, 7, 7], &[1, 0, 18, 0], &[3, 0, 0xfd, 1, 1, 1, 9]];
    let figures = with(Figures::empty(), &book(&[0, 1, 2, 8], &streams, &[]));
    let rows: Vec<_> = figures.rows().map(told).collect();
    assert_eq!(rows, [(0, 1, [1, 1, 0, 0, 2]), (0, 3, [0, 0, 2, 2, 4]), (0, 257, [0, 0, 1, 1, 4])]);
    assert!(!figures.are_none());
}

#[test]
fn sums() {
    let (most, tenth, free) = (invoice_of(b"21000000"), invoice_of(b"10p"), invoice_of(b""));
    let figures = with(Figures::empty(), &book(&[], &[], &[&most, &free, b"lnbc1"]));
    assert_eq!((figures.invoices(), figures.without_amount()), (2, 1));
    let figures = (0..8).fold(figures, |figures, _| with(figures, &book(&[], &[], &[&most])));
    let sum = 9 * 2_100_000_000_000_000_000;
    assert!(sum > u128::from(u64::MAX));
    assert_eq!((figures.millisatoshi(), figures.satoshi()), (sum, Some(sum / 1_000)));
    let figures = with(figures, &book(&[], &[], &[&tenth]));
    assert_eq!((figures.millisatoshi(), figures.satoshi()), (sum + 1, None));
    assert_eq!((figures.books(), figures.invoices()), (10, 11));
    let mut digits = [7; 21];
    assert_eq!(decimal(sum + 1, &mut digits).unwrap(), b"18900000000000000001");
    assert_eq!(digits[20], 7);
    assert_eq!(decimal(10, &mut digits[..1]).unwrap_err().number, 12);
    assert_eq!(digits[0], b'1');
}

#[test]
fn refused_books_are_counted() {
    let before = with(Figures::default(), &book(&[], &[&[1, 0]], &[&invoice_of(b"1")]));
    let good = book(&[], &[&[3, 0]], &[]);
    let refusals = [
        (60, [&[1, 1], &[0; 257 * 32 + 6][..]].concat()),
        (61, book(&[64, 1, 0, 0], &[&[3, 0]], &[])),
        (62, book(&[0, 1, 0, 0, 0, 1, 0, 0], &[&[3, 0]], &[])),
        (63, book(&[0, 1, 6, 9], &[&[3, 0]], &[])),
        (70, good[..good.len() - 1].to_vec()),
        (71, [&good[..], &[0]].concat()),
        (72, vec![0; 65_536]),
    ];
    let mut figures = before.clone();
    for (count, (number, bad)) in (2..).zip(refusals) {
        let (next, answer) = figures.add(&bad);
        assert_eq!((refused(answer), next.books()), ((number, 0, 0), count));
        assert!(next.rows().eq(before.rows()));
        assert_eq!((next.invoices(), next.millisatoshi()), (1, 100_000_000_000));
        figures = next;
    }
}

#[test]
fn too_many_pairs() {
    let full = with(Figures::empty(), &book(&[], &[&odd_types(PAIRS_MOST as u16)], &[]));
    assert_eq!(full.rows().len(), PAIRS_MOST);
    let (mut figures, answer) = full.add(&book(&[], &[&[1, 0]], &[]));
    assert_eq!(refused(answer), (73, 0, 0));
    for _ in 0..=BOOKS_MOST {
        let (next, answer) = figures.add(&[]);
        assert_eq!(refused(answer), (73, 0, 0));
        figures = next;
    }
    assert!(figures.are_none());
    assert_eq!((figures.books(), figures.rows().len(), figures.invoices()), (0, 0, 0));
    assert_eq!((figures.without_amount(), figures.millisatoshi()), (0, 0));
}

#[test]
fn too_many_books() {
    let one = book(&[], &[&[1, 1, 9]], &[]);
    let figures = (0..BOOKS_MOST).fold(Figures::empty(), |figures, _| with(figures, &one));
    for further in [&one[..], &[], &book(&[], &[&odd_types(513)], &[])] {
        let (after, answer) = figures.clone().add(further);
        assert_eq!((after, refused(answer)), (figures.clone(), (76, 0, 0)));
    }
    let row = figures.rows().next().unwrap();
    assert_eq!((row.passed_over, row.passed_over_bytes, row.frame_bytes), (1_000, 1_000, 2_000));
    assert_eq!(
        format!("{figures:?}"),
        format!("Figures {{ 1000 books, 0 invoices, 0 without amount, 0 millisatoshi, rows [{row:?}] }}")
    );
}

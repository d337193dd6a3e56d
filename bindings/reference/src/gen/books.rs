//! Recording books.

use super::invoices::invoice_text;
use super::messages::{any_message, counted, message};
use super::streams::{spaced_rows, stream, table_and_namespace};
use super::{damaged, Random, Rules};

/// The entries of a book before they are put together.
#[derive(Clone, Debug, Default)]
pub struct BookCase {
    /// The table.
    pub table: Vec<u64>,
    /// Namespace and bytes of each stream.
    pub streams: Vec<(u8, Vec<u8>)>,
    /// The messages.
    pub messages: Vec<Vec<u8>>,
    /// The invoices.
    pub invoices: Vec<Vec<u8>>,
}

impl BookCase {
    /// The book's bytes.
    pub fn bytes(&self) -> Vec<u8> {
        let count = |count: usize| (count as u16).to_be_bytes();
        let mut book = count(self.table.len() / 4).to_vec();
        let whole = self.table.len() / 4 * 4;
        book.extend(self.table[..whole].iter().flat_map(|number| number.to_be_bytes()));
        book.extend(count(self.streams.len()));
        for (namespace, stream) in &self.streams {
            book.push(*namespace);
            book.extend(counted(stream));
        }
        for section in [&self.messages, &self.invoices] {
            book.extend(count(section.len()));
            book.extend(section.iter().flat_map(|entry| counted(entry)));
        }
        book
    }
}

/// The entries of a book of so many streams, messages and invoices at most.
pub fn book_case(random: &mut Random, entries: usize, rules: Rules) -> BookCase {
    let (table, namespace) = table_and_namespace(random);
    let mut case = BookCase { table, ..BookCase::default() };
    for _ in 0..random.below(entries + 1) {
        let bytes = stream(random, &case.table, namespace, 120, rules);
        let namespace = if random.once_in(12) { random.byte() } else { namespace as u8 };
        case.streams.push((namespace, bytes));
    }
    for _ in 0..random.below(entries + 1) {
        let bytes = if rules == Rules::Kept { message(random, rules) } else { any_message(random) };
        case.messages.extend((bytes.len() < 5_000).then_some(bytes));
    }
    for _ in 0..random.below(entries / 2 + 1) {
        case.invoices.push(invoice_text(random, rules));
    }
    case
}

/// A book: valid, with faulty entries, damaged, cut, extended or any bytes.
pub fn book(random: &mut Random) -> Vec<u8> {
    let rules = Rules::any(random);
    let book = book_case(random, 8, rules).bytes();
    match random.below(12) {
        0 => damaged(random, &book),
        1 => book[..random.below(book.len())].to_vec(),
        2 => [&book[..], &[0]].concat(),
        3 => random.some_bytes(80),
        4 => vec![0; random.one_of(&[7, 8, 9, 65_535, 65_536])],
        _ => book,
    }
}

/// A valid book of close to 65,535 bytes with 240 rows, and a third of it each of streams, messages and invoices.
pub fn full_book() -> Vec<u8> {
    let mut random = Random::new(65_535);
    let mut case = BookCase { table: spaced_rows(5, 240, 2), ..BookCase::default() };
    let mut length = 8 + 8 * case.table.len();
    let share = (65_535 - length) / 3;
    let start = length;
    while length < start + share - 200 {
        let bytes = stream(&mut random, &case.table, 5, 120, Rules::Kept);
        length += 3 + bytes.len();
        case.streams.push((5, bytes));
    }
    while length < start + 2 * share - 400 {
        let bytes = message(&mut random, Rules::Kept);
        if bytes.len() < 400 {
            length += 2 + bytes.len();
            case.messages.push(bytes);
        }
    }
    while length < 65_535 - 1_500 {
        let bytes = invoice_text(&mut random, Rules::Kept);
        if bytes.len() < 1_400 {
            length += 2 + bytes.len();
            case.invoices.push(bytes);
        }
    }
    case.bytes()
}

/// A book of close to 65,535 bytes with as many entries as fit: messages without bytes, 32,763 of them.
pub fn most_entries() -> Vec<u8> {
    BookCase { messages: vec![Vec::new(); (65_535 - 8) / 2], ..BookCase::default() }.bytes()
}

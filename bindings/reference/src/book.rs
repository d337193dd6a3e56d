//! The recording book and its report.

use crate::message::Message;
use crate::refusal::{
    ensure, BOOK_CUT, BOOK_TOO_LONG, BYTES_AFTER_BOOK, LENGTH_CUT, NAMESPACE, NO_ROOM, TABLE_SIZE, TYPE_CUT, VALUE_CUT,
};
use crate::stream::{self, Stream};
use crate::table::{self, Row};
use crate::{invoice, message, Refusal};

/// The most bytes of a book.
pub const LONGEST: usize = 65_535;

/// The bytes of a row.
const ROW_BYTES: usize = 32;

/// More than the longest line of a report has, but for what is missing and the rest of an address.
const LINE: usize = 64;

/// What the longest count of missing bytes takes.
const MISSING: usize = " missing 18446744073709551615".len();

/// The digits of hex.
const DIGITS: &[u8; 16] = b"0123456789abcdef";

/// A section whose entries are whole: their count, and the bytes with them.
#[derive(Clone, Copy)]
pub(crate) struct Section<'a> {
    count: u16,
    bytes: &'a [u8],
}

/// A book whose sections are whole.
pub(crate) struct Book<'a> {
    rows: Section<'a>,
    pub(crate) streams: Section<'a>,
    messages: Section<'a>,
    pub(crate) invoices: Section<'a>,
}

impl<'a> Section<'a> {
    /// The section at the front of the bytes, whose entries are taken one by one, and what follows it.
    fn split(bytes: &'a [u8], take: impl Fn(&'a [u8]) -> Option<&'a [u8]>) -> Result<(Self, &'a [u8]), Refusal> {
        let cut = Refusal::bare(BOOK_CUT);
        let (count, bytes) = bytes.split_first_chunk().ok_or(cut)?;
        let count = u16::from_be_bytes(*count);
        let rest = (0..count).try_fold(bytes, |rest, _| take(rest)).ok_or(cut)?;
        Ok((Self { count, bytes: &bytes[..bytes.len() - rest.len()] }, rest))
    }

    /// The entries: a head of so many bytes, the two-byte length, and that many bytes.
    pub(crate) fn entries<const HEAD: usize>(self) -> impl Iterator<Item = ([u8; HEAD], &'a [u8])> {
        let mut left = self.bytes;
        std::iter::from_fn(move || {
            let (head, entry, rest) = split_entry(left)?;
            left = rest;
            Some((*head, entry))
        })
    }
}

/// Head, bytes and rest of the entry at the front.
fn split_entry<const HEAD: usize>(bytes: &[u8]) -> Option<(&[u8; HEAD], &[u8], &[u8])> {
    let (head, bytes) = bytes.split_first_chunk()?;
    let (length, bytes) = bytes.split_first_chunk()?;
    let (entry, rest) = bytes.split_at_checked(u16::from_be_bytes(*length).into())?;
    Some((head, entry, rest))
}

/// What follows the entry at the front.
fn behind_entry<const HEAD: usize>(bytes: &[u8]) -> Option<&[u8]> {
    split_entry::<HEAD>(bytes).map(|(_, _, rest)| rest)
}

impl<'a> Book<'a> {
    /// The sections of a book: 72, 70, 71.
    pub(crate) fn open(book: &'a [u8]) -> Result<Self, Refusal> {
        ensure(book.len() <= LONGEST, Refusal::bare(BOOK_TOO_LONG))?;
        let (rows, rest) = Section::split(book, |bytes| bytes.get(ROW_BYTES..))?;
        let (streams, rest) = Section::split(rest, behind_entry::<1>)?;
        let (messages, rest) = Section::split(rest, behind_entry::<0>)?;
        let (invoices, rest) = Section::split(rest, behind_entry::<0>)?;
        ensure(rest.is_empty(), Refusal::bare(BYTES_AFTER_BOOK))?;
        Ok(Self { rows, streams, messages, invoices })
    }

    /// Puts the table into the buffer and checks it: 60 to 63.
    pub(crate) fn table<'t>(&self, buffer: &'t mut [u64; 4 * table::MOST_ROWS]) -> Result<&'t [Row], Refusal> {
        let numbers = self.rows.bytes.as_chunks().0;
        let buffer = buffer.get_mut(..numbers.len()).ok_or(Refusal::bare(TABLE_SIZE))?;
        for (number, bytes) in buffer.iter_mut().zip(numbers) {
            *number = u64::from_be_bytes(*bytes);
        }
        table::check(buffer)?;
        Ok(table::rows(buffer))
    }

    /// More characters than its report has: lines, what is missing, and two digits for each byte of a message.
    fn most_text(&self) -> usize {
        let [streams, messages, invoices] =
            [self.streams, self.messages, self.invoices].map(|section| usize::from(section.count));
        let in_streams = self.streams.bytes.len() - 3 * streams;
        let in_messages = self.messages.bytes.len() - 2 * messages;
        // An entry without bytes is not cut short.
        let cut = streams.min(in_streams) + messages.min(in_messages);
        LINE * (streams + messages + invoices + 2) + MISSING * cut + 2 * in_messages
    }
}

/// A stream as the book has it, for the judge: 61 for a namespace over 63.
pub(crate) fn stream_of<'a>(rows: &'a [Row], namespace: u8, bytes: &'a [u8]) -> Result<Stream<'a>, Refusal> {
    let namespace = u64::from(namespace);
    ensure(namespace <= table::LAST_NAMESPACE, Refusal::bare(NAMESPACE))?;
    Ok(Stream { rows, namespace, bytes, begin: 0 })
}

/// A text put into a lent output; what does not fit is counted only.
struct Text<'a> {
    out: &'a mut [u8],
    length: usize,
}

impl Text<'_> {
    // In line, the words' lengths are known where they are put.
    #[inline(always)]
    fn bytes(&mut self, bytes: &[u8]) {
        let end = self.length + bytes.len();
        if let Some(out) = self.out.get_mut(self.length..end) {
            out.copy_from_slice(bytes);
        }
        self.length = end;
    }

    #[inline(always)]
    fn words(&mut self, words: &str) {
        self.bytes(words.as_bytes());
    }

    /// A word and a number in decimal.
    #[inline(always)]
    fn count(&mut self, word: &str, number: u64) {
        self.words(word);
        self.number(number);
    }

    fn number(&mut self, number: u64) {
        let mut digits = [0; 20];
        let mut first = digits.len();
        let mut left = number;
        loop {
            first -= 1;
            digits[first] = b'0' + (left % 10) as u8;
            left /= 10;
            if left == 0 {
                break;
            }
        }
        self.bytes(&digits[first..]);
    }

    /// Bytes in lower-case hex.
    fn hex(&mut self, bytes: &[u8]) {
        let end = self.length + 2 * bytes.len();
        if let Some(out) = self.out.get_mut(self.length..end) {
            for (digits, byte) in out.as_chunks_mut().0.iter_mut().zip(bytes) {
                *digits = [DIGITS[usize::from(byte >> 4)], DIGITS[usize::from(byte & 15)]];
            }
        }
        self.length = end;
    }

    /// A descriptor's type, and its rest unless it is empty.
    fn address(&mut self, kind: u8, rest: &[u8]) {
        self.count(" address ", kind.into());
        if !rest.is_empty() {
            self.words(" ");
            self.hex(rest);
        }
    }

    fn refused(&mut self, refusal: Refusal) {
        self.count(" refused ", refusal.number.into());
        self.count(" at ", refusal.place as u64);
    }

    /// A refusal of a stream or a message; what is cut short tells how many bytes are missing.
    fn refused_with_type(&mut self, refusal: Refusal) {
        self.refused(refusal);
        self.count(" type ", refusal.kind);
        if matches!(refusal.number, TYPE_CUT | LENGTH_CUT | VALUE_CUT) {
            self.missing(refusal.missing);
        }
    }

    // Out of line, since most lines have none.
    #[inline(never)]
    fn missing(&mut self, missing: u64) {
        self.count(" missing ", missing);
    }

    fn end_line(&mut self) {
        self.words("\n");
    }
}

/// Reports on the streams and gives how many are refused.
fn report_streams(rows: &[Row], streams: Section, text: &mut Text) -> u64 {
    let mut refused = 0;
    for (number, ([namespace], bytes)) in (1..).zip(streams.entries()) {
        text.count("stream ", number);
        match stream_of(rows, namespace, bytes).and_then(|stream| stream::tally(&stream)) {
            Ok(counts) => {
                text.count(" ok records ", counts.records as u64);
                text.count(" known ", counts.known as u64);
            }
            Err(refusal) => {
                refused += 1;
                text.refused_with_type(refusal);
            }
        }
        text.end_line();
    }
    refused
}

/// Reports on the messages and gives how many are refused.
fn report_messages(messages: Section, text: &mut Text) -> u64 {
    let mut refused = 0;
    for (number, ([], bytes)) in (1..).zip(messages.entries()) {
        text.count("message ", number);
        match message::judge(bytes) {
            Ok(Message::PassedOver { kind }) => text.count(" passed over type ", kind.into()),
            Ok(message) => {
                text.count(" ok type ", message.kind().into());
                let records = message.extension().map_or(0, |extension| extension.counts.records);
                text.count(" extension ", records as u64);
                let address = message::address_in(bytes, &message).map(|part| &bytes[part.start..part.end()]);
                if let Some([kind, rest @ ..]) = address {
                    text.address(*kind, rest);
                }
            }
            Err(refusal) => {
                refused += 1;
                text.refused_with_type(refusal);
            }
        }
        text.end_line();
    }
    refused
}

/// Reports on the invoices and gives how many are refused.
fn report_invoices(invoices: Section, text: &mut Text) -> u64 {
    let mut refused = 0;
    for (number, ([], bytes)) in (1..).zip(invoices.entries()) {
        text.count("invoice ", number);
        match invoice::judge(bytes) {
            Ok(invoice) => {
                match invoice.msat {
                    Some(msat) => text.count(" ok msat ", msat.0),
                    None => text.words(" ok msat none"),
                }
                text.count(" fields ", invoice.fields as u64);
            }
            Err(refusal) => {
                refused += 1;
                text.refused(refusal);
            }
        }
        text.end_line();
    }
    refused
}

/// Puts the report on an accepted book.
fn report_accepted(book: &Book, rows: &[Row], text: &mut Text) {
    text.count("rows ", rows.len() as u64);
    text.end_line();
    let refused = report_streams(rows, book.streams, text)
        + report_messages(book.messages, text)
        + report_invoices(book.invoices, text);
    text.count("end streams ", book.streams.count.into());
    text.count(" messages ", book.messages.count.into());
    text.count(" invoices ", book.invoices.count.into());
    text.count(" refused ", refused);
    text.end_line();
}

/// Writes the report on a book to the front of the output and gives its length; 12 where it does not fit.
pub fn report(book: &[u8], out: &mut [u8]) -> Result<usize, Refusal> {
    let mut buffer = [0; 4 * table::MOST_ROWS];
    let opened = Book::open(book).and_then(|book| {
        let rows = book.table(&mut buffer)?;
        Ok((book, rows))
    });
    let put = |out: &mut [u8]| {
        let mut text = Text { out, length: 0 };
        match &opened {
            Ok((book, rows)) => report_accepted(book, rows, &mut text),
            Err(refusal) => {
                text.count("book refused ", refusal.number.into());
                text.end_line();
            }
        }
        text.length
    };
    // An output that is surely long enough needs no measuring.
    if out.len() < opened.as_ref().map_or(LINE, |(book, _)| book.most_text()) {
        ensure(put(&mut []) <= out.len(), Refusal::bare(NO_ROOM))?;
    }
    Ok(put(out))
}

#[cfg(test)]
mod tests {
    use super::*;

    fn report_of(book: &[u8]) -> String {
        let mut out = vec![0xa5; 1 << 19];
        let length = report(book, &mut out).unwrap();
        assert!(out[length..].iter().all(|&b| b == 0xa5));
        // The same text in an output of just its length, and 12 in a shorter one.
        let mut exact = vec![0; length];
        assert_eq!(report(book, &mut exact), Ok(length));
        assert_eq!(exact, out[..length]);
        exact.fill(0xa5);
        assert_eq!(report(book, &mut exact[1..]), Err(Refusal::bare(12)));
        assert!(exact.iter().all(|&b| b == 0xa5));
        String::from_utf8(out[..length].to_vec()).unwrap()
    }

    /// Document 01's own book.
    fn paper() -> Vec<u8> {
        let mut book = vec![0, 1];
        book.extend([0_u64, 1, 2, 8].iter().flat_map(|n| n.to_be_bytes()));
        book.extend([0, 2, 0, 0, 2, 1, 0, 0, 0, 2, 0x12, 0]);
        book.extend([0, 1, 0, 6, 0, 0x12, 0, 0, 0, 0, 0, 0]);
        book
    }

    #[test]
    fn the_book_of_document_01() {
        let book = paper();
        assert_eq!(book.len(), 58);
        let lines = [
            "rows 1",
            "stream 1 ok records 1 known 1",
            "stream 2 refused 7 at 0 type 18",
            "message 1 ok type 18 extension 0",
            "end streams 2 messages 1 invoices 0 refused 1",
        ];
        assert_eq!(report_of(&book), lines.map(|line| format!("{line}\n")).concat());
    }

    #[test]
    fn an_init_with_an_address() {
        let line = |extension: &[u8]| {
            let message = [&[0, 16, 0, 0, 0, 0], extension].concat();
            let book = [&[0, 0, 0, 0, 0, 1, 0, message.len() as u8], &message[..], &[0, 0]].concat();
            report_of(&book).lines().nth(1).unwrap().to_string()
        };
        assert_eq!(line(&[1, 0]), "message 1 ok type 16 extension 1");
        assert_eq!(line(&[3, 7, 1, 127, 0, 0, 1, 0x26, 7]), "message 1 ok type 16 extension 1 address 1 7f0000012607");
        assert_eq!(line(&[3, 1, 6, 5, 0]), "message 1 ok type 16 extension 2 address 6");
        assert_eq!(line(&[3, 0]), "message 1 refused 8 at 6 type 3");
    }

    #[test]
    fn what_is_cut_short_tells_what_is_missing() {
        let stream = |bytes: &[u8]| {
            let book = [&[0, 0, 0, 1, 0, 0, bytes.len() as u8], bytes, &[0, 0, 0, 0]].concat();
            report_of(&book).lines().nth(1).unwrap().to_string()
        };
        assert_eq!(stream(&[0xfd, 1]), "stream 1 refused 1 at 0 type 0 missing 1");
        assert_eq!(stream(&[1, 0, 3]), "stream 1 refused 4 at 2 type 3 missing 1");
        assert_eq!(stream(&[1, 5]), "stream 1 refused 6 at 0 type 1 missing 5");
        let longest = "stream 1 refused 6 at 0 type 18446744073709551615 missing 18446744073709551615";
        assert_eq!(stream(&[0xff; 18]), longest);
        assert_eq!(stream(&[0xfd, 0, 1]), "stream 1 refused 2 at 0 type 0");
        let message = [0, 0, 0, 0, 0, 1, 0, 6, 0, 19, 0, 0, 3, 9, 0, 0];
        assert_eq!(report_of(&message).lines().nth(1), Some("message 1 refused 6 at 4 type 3 missing 9"));
    }

    #[test]
    fn a_book_of_the_longest_lines() {
        let stream = [0xff; 18];
        let entry = [&[0, 0, 18], &stream[..]].concat();
        let book = [&[0, 0], &3_000_u16.to_be_bytes()[..], &entry.repeat(3_000), &[0; 4]].concat();
        let report = report_of(&book);
        assert_eq!(report.lines().count(), 3_002);
        assert!(report.lines().all(|line| line.len() < LINE + MISSING));
    }

    #[test]
    fn refused_books() {
        let mut book = paper();
        book[9] = 9;
        assert_eq!(report_of(&book[..57]), "book refused 70\n");
        assert_eq!(report_of(&[&book[..], &[0]].concat()), "book refused 71\n");
        book[2] = 1;
        assert_eq!(report_of(&book), "book refused 61\n");
        assert_eq!(report_of(&[]), "book refused 70\n");
        assert_eq!(report_of(&[0; 8]), "rows 0\nend streams 0 messages 0 invoices 0 refused 0\n");
        assert_eq!(report_of(&[0; 65_536]), "book refused 72\n");
        let mut rows = vec![1, 1];
        rows.resize(2 + 257 * 32 + 6, 0);
        assert_eq!(report_of(&rows), "book refused 60\n");
        rows.pop();
        assert_eq!(report_of(&rows), "book refused 70\n");
    }
}

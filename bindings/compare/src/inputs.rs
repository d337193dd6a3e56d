//! Inputs for each question: those of the generators, with a room for each output, and a few that they do not make.

use std::collections::BTreeSet;

use tockplover_reference::gen::{self, damaged, Random, Rules};
use tockplover_reference::message::Message;
use tockplover_reference::{
    bech32, bigsize, book, invoice, mender, message, message_writer, month, stream, stream_writer,
};

use crate::questions::*;

/// The longest report, for which the proved side measures nothing first.
const REPORT_MOST: usize = 1_966_198;

/// The case number's digits to a base, the shortest runs first.
fn digits(case: u64, base: u64) -> Vec<usize> {
    let mut run = Vec::new();
    let mut left = case;
    while left > 0 {
        left -= 1;
        run.push((left % base) as usize);
        left /= base;
    }
    run
}

/// Bytes to read a BigSize from.
pub fn bigsize_read(random: &mut Random) -> BigSizeRead {
    BigSizeRead { bytes: gen::bigsize_bytes(random) }
}

/// All bytes up to two, then a first byte that asks for more and all values of the next two.
pub fn short_bigsize(case: u64) -> BigSizeRead {
    let short = 1 + 256 + 65_536;
    if case < short {
        return BigSizeRead { bytes: digits(case, 256).iter().map(|&digit| digit as u8).collect() };
    }
    let [.., high, low] = (case - short).to_be_bytes();
    BigSizeRead { bytes: vec![253, high, low] }
}

/// A number and a room.
pub fn bigsize_write(random: &mut Random) -> BigSizeWrite {
    let value = random.wide_number();
    BigSizeWrite { value, room: random.room(bigsize::width(value)) }
}

/// A table, or almost one.
pub fn table_check(random: &mut Random) -> TableCheck {
    TableCheck { table: gen::any_table(random) }
}

/// An older and a newer table.
pub fn table_extends(random: &mut Random) -> TableExtends {
    let (older, newer) = gen::table_pair(random);
    TableExtends { older, newer }
}

/// A stream, or one with a single byte changed in a table that has every form.
fn stream_case(random: &mut Random) -> gen::StreamCase {
    let mut case = gen::stream_case(random);
    if random.once_in(3) {
        case.table = random.one_of(&[&gen::METERS[..], &gen::BOLT_1[..]]).to_vec();
        case.namespace = random.one_of(&[0, 1, 1, 2]);
        case.stream = gen::stream(random, &case.table, case.namespace, 400, Rules::Kept);
        let place = random.below(case.stream.len());
        if let Some(byte) = case.stream.get_mut(place) {
            *byte = random.one_of(&[0, 0, 1, 4, 6, 255]);
        }
    }
    case
}

/// A stream with its table.
pub fn stream_count(random: &mut Random) -> StreamCount {
    let gen::StreamCase { table, namespace, stream, .. } = stream_case(random);
    StreamCount { table, namespace, stream }
}

/// A stream and a room for its index.
pub fn stream_read(random: &mut Random) -> StreamRead {
    let StreamCount { table, namespace, stream } = stream_count(random);
    with_room(random, table, namespace, stream)
}

fn with_room(random: &mut Random, table: Vec<u64>, namespace: u64, stream: Vec<u8>) -> StreamRead {
    let records = stream::count(&table, namespace, &stream).map_or(random.below(9), |counts| counts.records);
    StreamRead { table, namespace, stream, room: random.room(stream::ROW_NUMBERS * records) }
}

/// All short streams of bytes that mean something to the meters' table, which has every form and nests without end.
pub fn short_stream(case: u64) -> StreamRead {
    let bytes = [0, 1, 2, 3, 4, 6, 8, 11, 253, 254];
    let stream = digits(case, bytes.len() as u64).into_iter().map(|digit| bytes[digit]).collect();
    StreamRead { table: gen::METERS.to_vec(), namespace: 0, stream, room: 12 }
}

/// A full stream with a table of 240 rows; whole, damaged or cut.
pub fn long_stream(random: &mut Random) -> StreamRead {
    let step = random.one_of(&[2, 100]);
    let table = gen::spaced_rows(5, 240, step);
    let mut stream = gen::full_stream(240, step);
    match random.below(4) {
        0 => {}
        1 => stream.truncate(random.below(stream.len())),
        2 => stream = damaged(random, &stream),
        _ => {
            let place = random.below(stream.len());
            stream[place] = random.byte();
        }
    }
    with_room(random, table, 5, stream)
}

/// A stream of few of the types of many rows, and a room for its index.
pub fn few_of_many_rows(random: &mut Random) -> StreamRead {
    let gen::StreamCase { table, namespace, stream, .. } = gen::few_of_many_rows(random);
    with_room(random, table, namespace, stream)
}

/// Such a stream, and a type of one of the rows.
pub fn asked_of_many_rows(random: &mut Random) -> StreamContains {
    let gen::StreamCase { table, namespace, stream, asked } = gen::few_of_many_rows(random);
    StreamContains { table, namespace, stream, kind: asked }
}

/// The triples of such a stream, at times with a type changed to one behind all rows.
pub fn triples_of_many_rows(random: &mut Random) -> StreamWrite {
    let gen::StreamCase { table, namespace, stream, .. } = gen::few_of_many_rows(random);
    let mut triples = gen::triples_of(&table, namespace, &stream);
    if random.once_in(4) && !triples.is_empty() {
        let row = random.below(triples.len() / 3);
        triples[3 * row] = 1_000_000 + random.wide_number() / 2;
    }
    let length = stream_writer::measure(&table, namespace, &triples, &stream).unwrap_or(9);
    StreamWrite { table, namespace, triples, source: stream, room: random.room(length) }
}

/// Many rows, and some of them as the older table, at times with a number changed.
pub fn extends_many_rows(random: &mut Random) -> TableExtends {
    let newer = gen::many_rows(random);
    let share = random.one_of(&[1, 2, 20]);
    let mut older: Vec<u64> = newer.chunks(4).filter(|_| random.once_in(share)).flatten().copied().collect();
    if random.once_in(2) && !older.is_empty() {
        let place = random.below(older.len());
        older[place] += 1;
    }
    TableExtends { older, newer }
}

/// A book of many rows and of streams of few of their types.
fn book_of_many_rows(random: &mut Random) -> Vec<u8> {
    let table = gen::many_rows(random);
    let streams = (0..random.below(6)).map(|_| {
        let namespace = random.below(4) as u64;
        (namespace as u8, gen::few_types(random, &table, namespace))
    });
    gen::BookCase { streams: streams.collect(), table, ..gen::BookCase::default() }.bytes()
}

/// The report on such a book.
pub fn report_of_many_rows(random: &mut Random) -> BookReport {
    let book = book_of_many_rows(random);
    report_with_room(random, book)
}

/// A month of such books.
pub fn month_of_many_rows(random: &mut Random) -> MonthRun {
    MonthRun { books: (0..=random.below(4)).map(|_| book_of_many_rows(random)).collect() }
}

/// A stream and a type.
pub fn stream_contains(random: &mut Random) -> StreamContains {
    let gen::StreamCase { table, namespace, stream, asked } = stream_case(random);
    StreamContains { kind: any_kind(random, &table, namespace, &stream, asked), table, namespace, stream }
}

/// A stream and a type.
pub fn stream_value(random: &mut Random) -> StreamValue {
    let StreamContains { table, namespace, stream, kind } = stream_contains(random);
    StreamValue { table, namespace, stream, kind }
}

/// The asked type, or that of any record of an accepted stream.
fn any_kind(random: &mut Random, table: &[u64], namespace: u64, stream: &[u8], asked: u64) -> u64 {
    let triples = gen::triples_of(table, namespace, stream);
    if triples.is_empty() || random.once_in(2) {
        return asked;
    }
    triples[3 * random.below(triples.len() / 3)]
}

/// Triples, their source and a room; in a table that has every form, at times with a single byte of the source changed.
pub fn stream_write(random: &mut Random) -> StreamWrite {
    let gen::TriplesCase { mut table, mut namespace, mut triples, mut source } = gen::triples_case(random);
    if random.once_in(4) {
        table = gen::METERS.to_vec();
        namespace = random.below(2) as u64;
        source = gen::stream(random, &table, namespace, 400, Rules::Kept);
        triples = gen::triples_of(&table, namespace, &source);
        let place = random.below(source.len());
        if let Some(byte) = source.get_mut(place) {
            *byte = random.one_of(&[0, 0, 1, 4, 6, 255]);
        }
    }
    let length = stream_writer::measure(&table, namespace, &triples, &source).unwrap_or(9);
    StreamWrite { table, namespace, triples, source, room: random.room(length) }
}

/// The triples of a full stream, at times with one number changed.
pub fn long_triples(random: &mut Random) -> StreamWrite {
    let StreamRead { table, namespace, stream, .. } = long_stream(random);
    let mut triples = gen::triples_of(&table, namespace, &stream);
    if random.once_in(2) && !triples.is_empty() {
        let place = random.below(triples.len());
        triples[place] = random.wide_number();
    }
    let length = stream_writer::measure(&table, namespace, &triples, &stream).unwrap_or(9);
    StreamWrite { table, namespace, triples, source: stream, room: random.room(length) }
}

/// A message and a room for its extension's index.
pub fn message_read(random: &mut Random) -> MessageRead {
    let message = gen::any_message(random);
    let records = |message: Message| message.extension().map_or(2, |extension| extension.counts.records);
    let room = stream::ROW_NUMBERS * message::judge(&message).map_or(2, records);
    MessageRead { message, room: random.room(room) }
}

/// What a message is written from, and a room.
pub fn message_write(random: &mut Random) -> MessageWrite {
    let gen::MessageCase { kind, first, last, wanted, triples, source } = gen::message_case(random);
    let mut longest = vec![0; message::LONGEST];
    let length = message_writer::write(kind, &first, &last, wanted, &triples, &source, &mut longest).unwrap_or(9);
    MessageWrite { kind, first, last, wanted: wanted.into(), triples, source, room: random.room(length) }
}

/// All message types, then other numbers.
pub fn message_group(case: u64, random: &mut Random) -> MessageGroup {
    MessageGroup { kind: if case < 65_536 { case } else { random.wide_number() } }
}

/// Two feature maps and a room.
pub fn join_features(random: &mut Random) -> JoinFeatures {
    let (a, b) = gen::feature_maps(random);
    let room = random.room(a.len().max(b.len()));
    JoinFeatures { a, b, room }
}

/// A wanted count and a room.
pub fn pong(random: &mut Random) -> Pong {
    let wanted = gen::wanted(random);
    let length = if wanted < message::NO_PONG { 4 + wanted as usize } else { 4 };
    Pong { wanted, room: random.room(length) }
}

/// A text and a room for its groups and its fields.
fn read_with_room(random: &mut Random, text: Vec<u8>) -> InvoiceRead {
    let (groups, fields) = invoice::judge(&text).map_or((9, 9), |invoice| (invoice.groups, invoice.fields));
    let (groups_room, index_room) = (random.room(groups), random.room(invoice::ROW_NUMBERS * fields));
    InvoiceRead { text, groups_room, index_room }
}

/// An invoice's text.
pub fn invoice_read(random: &mut Random) -> InvoiceRead {
    let rules = Rules::any(random);
    let text = gen::invoice_text(random, rules);
    read_with_room(random, text)
}

/// A text with a right checksum whose human readable part is a prefix, or almost one, and characters of amounts.
pub fn priced_invoice(random: &mut Random) -> InvoiceRead {
    let mut case = gen::invoice_case(random, Rules::Kept);
    case.prefix = 1;
    let fields = [vec![0; 7], case.fields, case.signature].concat();
    let mut readable =
        random.one_of(&["lnbc", "lnbc", "lnbc", "lntb", "lntb", "lnb", "lnbcrt", "lntbs", "b", ""]).to_string();
    let digits = random.below(22);
    readable.extend((0..digits).map(|_| char::from(random.one_of(b"0123456789"))));
    for _ in 0..random.one_of(&[0, 1, 1, 1, 2]) {
        readable.push(char::from(random.one_of(b"munpmunpx01~!")));
    }
    let mut text = gen::closed_text(readable.as_bytes(), &fields);
    if random.once_in(4) {
        text.make_ascii_uppercase();
    }
    read_with_room(random, text)
}

/// The amounts 1p, 1P, 2p, 2P and so on up to 8000P, and then those of 19 digits from the greatest down.
fn tenths(case: u64) -> Vec<u8> {
    let place = case / 2;
    let number = if place < 8_000 { 1 + place } else { 9_999_999_999_999_999_999 - (place - 8_000) };
    let letter = if case.is_multiple_of(2) { 'p' } else { 'P' };
    format!("{number}{letter}").into_bytes()
}

/// An invoice for an amount with p, all in one case.
pub fn tenths_read(case: u64, random: &mut Random) -> InvoiceRead {
    let mut parts = gen::invoice_case(random, Rules::Kept);
    parts.amount = tenths(case).to_ascii_lowercase();
    let mut text = gen::text_of(&parts);
    if !case.is_multiple_of(2) {
        text.make_ascii_uppercase();
    }
    read_with_room(random, text)
}

/// What an invoice for an amount with p is written from, and a room.
pub fn tenths_write(case: u64, random: &mut Random) -> InvoiceWrite {
    let gen::InvoiceCase { prefix, time, fields, signature, .. } = gen::invoice_case(random, Rules::Kept);
    let amount = tenths(case);
    let room = random.room(122 + amount.len() + fields.len());
    InvoiceWrite { prefix: prefix & 255, amount, time, fields, signature, room }
}

/// A text of 4,096 characters with as many fields as fit; whole, with some groups changed and closed again, or damaged.
pub fn long_invoice(random: &mut Random) -> InvoiceRead {
    let mut text = gen::full_invoice();
    match random.below(4) {
        0 => text = damaged(random, &text),
        1 => {}
        _ => {
            let parted = text.iter().rposition(|&character| character == b'1').unwrap_or(0);
            let data = &text[parted + 1..text.len() - bech32::CHECKSUM_GROUPS];
            let mut groups: Vec<u8> = data.iter().map(|&character| bech32::group_of(character)).collect();
            for _ in 0..=random.below(3) {
                let place = random.below(groups.len());
                groups[place] = random.byte() & 31;
            }
            text = gen::closed_text(&text[..parted], &groups);
        }
    }
    read_with_room(random, text)
}

/// What an invoice is written from, and a room.
pub fn invoice_write(random: &mut Random) -> InvoiceWrite {
    let rules = Rules::any(random);
    let gen::InvoiceCase { prefix, amount, time, fields, signature } = gen::invoice_case(random, rules);
    let room = random.room(122 + amount.len() + fields.len());
    InvoiceWrite { prefix: prefix & 255, amount, time, fields, signature, room }
}

/// A field and a room for its bytes.
pub fn field_bytes(random: &mut Random) -> FieldBytes {
    let gen::FieldCase { groups, start, size, .. } = gen::field_case(random);
    let room = random.room(bech32::whole_bytes(size.min(1_000) as usize));
    FieldBytes { groups, start, size, room }
}

/// A field.
pub fn field_number(random: &mut Random) -> FieldNumber {
    let gen::FieldCase { groups, start, size, .. } = gen::field_case(random);
    FieldNumber { groups, start, size }
}

/// A field.
pub fn route_size(random: &mut Random) -> RouteSize {
    let gen::FieldCase { groups, kind, start, size, .. } = gen::field_case(random);
    RouteSize { groups, kind, start, size }
}

/// A field, an entry's number and a room for its key.
pub fn route_entry(random: &mut Random) -> RouteEntry {
    let gen::FieldCase { groups, kind, start, size, entry } = gen::field_case(random);
    RouteEntry { groups, kind, start, size, k: entry, room: random.room(invoice::KEY) }
}

/// A field's type, mostly one.
fn field_kind(random: &mut Random) -> u64 {
    let any = random.byte();
    u64::from(if random.once_in(8) { any } else { any & 31 })
}

/// A field's bytes and a room.
pub fn field_from_bytes(random: &mut Random) -> FieldFromBytes {
    let count = match random.below(20) {
        0 => 630 + random.below(20),
        1 => random.below(2_000),
        _ => random.below(60),
    };
    let bytes = random.bytes(count);
    let room = random.room(invoice::FIELD_HEAD + bech32::groups_for(count));
    FieldFromBytes { kind: field_kind(random), bytes, room }
}

/// A field's number and a room.
pub fn field_from_number(random: &mut Random) -> FieldFromNumber {
    let number = match random.below(3) {
        0 => random.wide_number(),
        1 => (1_u64 << random.below(64)).wrapping_sub(random.below(2) as u64),
        _ => random.number() >> (4 + random.below(60)),
    };
    let groups = (u64::BITS - number.leading_zeros()).div_ceil(5) as usize;
    FieldFromNumber { kind: field_kind(random), number, room: random.room(invoice::FIELD_HEAD + groups) }
}

/// A count of millisatoshis, often of whole satoshis.
pub fn to_sat(random: &mut Random) -> ToSat {
    let msat = random.wide_number();
    ToSat { msat: if random.once_in(2) { msat / 1_000 * 1_000 } else { msat } }
}

/// A book and a room for its report.
fn report_with_room(random: &mut Random, book: Vec<u8>) -> BookReport {
    let length = book::report(&book, &mut vec![0; REPORT_MOST]).unwrap_or(0);
    let room = if random.once_in(50) { REPORT_MOST } else { random.room(length) };
    BookReport { book, room }
}

/// A book.
pub fn book_report(random: &mut Random) -> BookReport {
    let book = gen::book(random);
    report_with_room(random, book)
}

/// A book of close to 65,535 bytes; whole, damaged or with a byte changed.
pub fn long_book(random: &mut Random) -> BookReport {
    let mut book = if random.once_in(4) { gen::most_entries() } else { gen::full_book() };
    match random.below(8) {
        0 => {}
        1 => book = damaged(random, &book),
        _ => {
            for _ in 0..=random.below(20) {
                let place = random.below(book.len());
                book[place] = random.byte();
            }
        }
    }
    report_with_room(random, book)
}

/// Up to twelve books, of which at times one comes again.
pub fn month_run(random: &mut Random) -> MonthRun {
    let mut books = Vec::new();
    for _ in 0..random.below(13) {
        let again = books.get(random.below(books.len())).filter(|_| random.once_in(4)).cloned();
        books.push(again.unwrap_or_else(|| gen::book(random)));
    }
    MonthRun { books }
}

/// A stream of records of odd types, with values of up to eight bytes.
fn stream_of(random: &mut Random, kinds: &[u64]) -> Vec<u8> {
    let source = random.bytes(8);
    let triples: Vec<u64> = kinds.iter().flat_map(|&kind| [kind, 0, random.below(9) as u64]).collect();
    let mut stream = vec![0; 18 * kinds.len()];
    let length = stream_writer::write(&[], 0, &triples, &source, &mut stream).expect("odd types that rise");
    stream.truncate(length);
    stream
}

/// A book whose streams have these pairs, which rise; its table knows a few of them.
fn book_of(random: &mut Random, pairs: &[(u64, u64)]) -> Vec<u8> {
    let share = 1 + pairs.len() / 100 + random.below(8);
    let known = pairs.iter().filter(|_| random.once_in(share)).take(256);
    let table = known.flat_map(|&(namespace, kind)| [namespace, kind, 0, 0]).collect();
    let mut streams = Vec::new();
    for run in pairs.chunk_by(|a, b| a.0 == b.0) {
        let kinds: Vec<u64> = run.iter().map(|pair| pair.1).collect();
        for part in kinds.chunks(1 + random.below(2 * kinds.len())) {
            streams.push((run[0].0 as u8, stream_of(random, part)));
        }
    }
    gen::BookCase { table, streams, ..gen::BookCase::default() }.bytes()
}

/// Some of the pairs, in their order.
fn some_pairs(random: &mut Random, pairs: &[(u64, u64)], share: usize) -> Vec<(u64, u64)> {
    let mut some: Vec<_> = pairs.iter().copied().filter(|_| random.once_in(share)).collect();
    some.sort_unstable();
    some
}

/// Books that come to 510 to 514 pairs, many or few new ones in each and old ones among them, and one book more.
pub fn many_pairs(random: &mut Random) -> MonthRun {
    let total = random.one_of(&[510, 511, 512, 513, 514]);
    let namespaces = random.one_of(&[1, 3, 64]);
    let mut pairs = BTreeSet::new();
    while pairs.len() < total {
        pairs.insert((random.below(namespaces) as u64, random.wide_number() | 1));
    }
    let mut new: Vec<_> = pairs.into_iter().collect();
    for place in 0..total {
        new.swap(place, random.below(total));
    }
    let mut books = Vec::new();
    let mut met = 0;
    while met < total {
        let more = random.one_of(&[1, 3, 100, 500]).min(total - met);
        let old = some_pairs(random, &new[..met], 9);
        let mut pairs = [&old, &new[met..met + more]].concat();
        pairs.sort_unstable();
        books.push(book_of(random, &pairs));
        met += more;
    }
    let old = some_pairs(random, &new, 2);
    books.push(book_of(random, &old));
    MonthRun { books }
}

/// 999 to 1,002 books, some of them bad; every other time one has too many pairs, at times the thousandth or one behind.
pub fn many_books(case: u64, random: &mut Random) -> MonthRun {
    let good: Vec<_> = (0..4).map(|_| gen::book_case(random, 3, Rules::Kept).bytes()).collect();
    let bad = [vec![0], vec![0; 9], [&good[0][..], &[0]].concat()];
    let count = 999 + (case / 2 % 4) as usize;
    let mut books: Vec<_> =
        (0..count).map(|_| random.one_of(&[&good[0], &good[1], &good[2], &bad[0], &bad[1]])).collect();
    books[count - 1] = &good[3];
    let over: Vec<_> = (0..513).map(|place| (7, 2 * place + 1)).collect();
    let over = book_of(random, &over);
    if !case.is_multiple_of(2) {
        let any = random.below(count);
        books[random.one_of(&[any, any, 998, 999.min(count - 1), 1_000.min(count - 1)])] = &over;
    }
    MonthRun { books: books.into_iter().cloned().collect() }
}

/// Books of a few invoices, most of them for close to the highest amount.
pub fn high_sums(random: &mut Random) -> MonthRun {
    let amount = |random: &mut Random| match random.below(6) {
        0 => String::new(),
        1 => format!("{}0p", 1 + random.below(1_000)),
        2 => format!("{}m", 21_000_000_000 - random.below(9)),
        3 => "21000000".to_string(),
        _ => format!("{}n", 21_000_000_000_000_000 - random.below(1_000_000)),
    };
    let book = |random: &mut Random| {
        let mut case = gen::BookCase::default();
        for _ in 0..random.below(4) {
            let mut parts = gen::invoice_case(random, Rules::Kept);
            parts.amount = amount(random).into_bytes();
            case.invoices.push(gen::text_of(&parts));
        }
        case.bytes()
    };
    MonthRun { books: (0..4 + random.below(12)).map(|_| book(random)).collect() }
}

/// A number that is close to 2^64, or any.
fn high_number(random: &mut Random) -> u64 {
    let any = random.wide_number();
    random.one_of(&[u64::MAX, u64::MAX - 1, u64::MAX - any % 100, any])
}

/// A book, and figures of no run: high numbers in rows of some pairs of the book and of others, at times not rising, with
/// more behind them, or fewer or more than are named.
pub fn month_add(random: &mut Random) -> MonthAdd {
    let book = gen::book(random);
    let (brought, _) = month::add(month::empty(), &book);
    let brought = brought.rows.iter().take(brought.pairs).map(|row| (row.namespace, row.kind));
    let mut pairs: BTreeSet<_> = brought.filter(|_| random.once_in(2)).collect();
    for _ in 0..random.one_of(&[0, 3, 40, 500]) {
        pairs.insert((random.one_of(&[0, 1, 5, 63, 64, u64::MAX]), random.wide_number()));
    }
    let pairs: Vec<_> = pairs.into_iter().take(month::MOST_PAIRS).collect();
    let mut rows: Vec<u64> = Vec::new();
    for &(namespace, kind) in &pairs {
        rows.extend([namespace, kind]);
        rows.extend((0..5).map(|_| high_number(random)));
    }
    if random.once_in(8) && !pairs.is_empty() {
        let place = 7 * random.below(pairs.len()) + random.below(2);
        rows[place] = random.one_of(&[0, 1, rows[place] ^ 1, u64::MAX]);
    }
    let count = pairs.len() as u64;
    let named = random.one_of(&[0, count.saturating_sub(1), count / 2, count + 1, 512, 513, 1 << 32, u64::MAX]);
    MonthAdd {
        rows,
        pairs: if random.once_in(4) { named } else { count },
        books: random.one_of(&[0, 1, 998, 999, 999, 999, 1_000, u64::MAX]),
        invoices: high_number(random),
        unpriced: high_number(random),
        high: high_number(random),
        low: high_number(random),
        book,
    }
}

/// A number of up to 128 bits: any, a power of ten or one less.
fn long_number(random: &mut Random) -> u128 {
    let any = u128::from(random.number()) << 64 | u128::from(random.number());
    match random.below(4) {
        0 => 10_u128.pow(random.below(39) as u32) - random.below(2) as u128,
        1 => u128::MAX - any % 2_000,
        _ => any >> random.below(128),
    }
}

/// A sum, often of whole satoshis.
pub fn month_satoshi(random: &mut Random) -> MonthSatoshi {
    let any = long_number(random);
    let sum = if random.once_in(2) { any / 1_000 * 1_000 } else { any };
    MonthSatoshi { high: (sum >> 64) as u64, low: sum as u64 }
}

/// A sum and a room for its digits.
pub fn month_decimal(random: &mut Random) -> MonthDecimal {
    let sum = long_number(random);
    MonthDecimal { high: (sum >> 64) as u64, low: sum as u64, room: random.room(sum.to_string().len()) }
}

/// A stream and a room for what comes of it.
fn mend_with_room(random: &mut Random, stream: Vec<u8>) -> Mend {
    let mended = mender::mend(&stream, &mut vec![0; stream.len()]);
    let room = random.room(mended.map_or(stream.len(), |mended| mended.length));
    Mend { stream, room }
}

/// A stream of the old gateway.
pub fn mend(random: &mut Random) -> Mend {
    let few = random.one_of(&[0, 4, 12, 40, 100, 200, 400]);
    let bytes = if random.once_in(20) { 6_000 } else { few };
    let stream = gen::old_stream(random, bytes);
    mend_with_room(random, stream)
}

/// All short streams of bytes of which records, copies and long spellings come.
pub fn short_mend(case: u64) -> Mend {
    let bytes = [0, 1, 2, 253, 254];
    let stream: Vec<u8> = digits(case, bytes.len() as u64).into_iter().map(|digit| bytes[digit]).collect();
    Mend { room: stream.len(), stream }
}

/// Changes a byte at times.
fn changed_at_times(random: &mut Random, stream: &mut [u8]) {
    if random.once_in(4) {
        let place = random.below(stream.len());
        stream[place] = random.byte();
    }
}

/// As many records of random types as a sort or a work space is made for, or one less or more; at times with a byte
/// changed.
pub fn counted_mend(random: &mut Random) -> Mend {
    let count = random.one_of(&[16, 32, 64, 128, 256, 1_024, 2_048, 4_096]) - 1 + random.below(3);
    let most = random.one_of(&[20, 253, 65_536]);
    let kinds: Vec<_> = (0..count).map(|_| random.below(most) as u64).collect();
    let mut stream = gen::records_of(kinds, &[7]);
    changed_at_times(random, &mut stream);
    mend_with_room(random, stream)
}

/// Types of records that fill a stream: rising, falling, all the same, or any, of one or two bytes.
fn many_kinds(random: &mut Random) -> Vec<u64> {
    match random.below(5) {
        0 => (0..16_510).collect(),
        1 => (0..16_510).rev().collect(),
        2 => vec![random.wide_number(); 32_767],
        3 => (0..32_767).map(|_| random.below(253) as u64).collect(),
        _ => (0..32_767).map(|_| random.below(65_536) as u64).collect(),
    }
}

/// A full stream of the old gateway, or one of small records with the same value, at times with a byte changed; at times
/// one byte too long.
pub fn long_mend(random: &mut Random) -> Mend {
    let mut stream = gen::old_stream(random, stream::LONGEST + 1);
    if random.once_in(2) {
        let count = random.one_of(&[0, 0, 4]);
        let value = random.bytes(count);
        stream = gen::records_of(many_kinds(random), &value);
        changed_at_times(random, &mut stream);
    }
    stream.truncate(stream::LONGEST + usize::from(random.once_in(8)));
    mend_with_room(random, stream)
}

/// A value to read a descriptor from.
pub fn address_read(random: &mut Random) -> AddressRead {
    AddressRead { value: gen::address_value(random) }
}

/// Every type with a rest of 0 to 63 bytes, then names of every length with what is behind them from none to too much.
pub fn sized_address(case: u64) -> AddressRead {
    let (low, count) = ((case % 256) as u8, (case / 256) as usize);
    if count < 64 {
        return AddressRead { value: [&[low], &vec![7; count][..]].concat() };
    }
    let mut value = vec![low; 2 + usize::from(low) + count - 64];
    value[0] = 5;
    AddressRead { value }
}

/// What a descriptor is written from, and a room.
pub fn address_write(random: &mut Random) -> AddressWrite {
    let gen::AddressCase { kind, rest } = gen::address_case(random);
    AddressWrite { kind: kind.into(), room: random.room(1 + rest.len()), rest }
}

/// An init with an address, or with a value that may be none.
fn init_with_value(random: &mut Random) -> Vec<u8> {
    let value = gen::address_value(random);
    gen::init_with_address(random, &value)
}

/// A message, often an init with an address.
pub fn message_address(random: &mut Random) -> MessageAddress {
    let message = if random.once_in(3) { init_with_value(random) } else { gen::any_message(random) };
    MessageAddress { message }
}

/// What an init with an address is written from, at times as long as a message is or a byte longer, and a room.
pub fn init_write(random: &mut Random) -> MessageWrite {
    let (first, last) = gen::feature_maps(random);
    let mut source = gen::address_value(random);
    if random.once_in(16) {
        // Its type, the lengths of both maps, and the record's type and length take ten bytes.
        source = vec![255; message::LONGEST - 10 - first.len() - last.len() + random.below(2)];
    }
    let triples = vec![message::REMOTE_ADDR, 0, source.len() as u64];
    let room = random.room(10 + first.len() + last.len() + source.len());
    MessageWrite { kind: message::INIT.into(), first, last, wanted: 0, triples, source, room }
}

/// A book of inits with addresses, at times of as many bytes as a book has.
pub fn report_of_addresses(random: &mut Random) -> BookReport {
    let mut case = gen::BookCase::default();
    case.messages.extend((0..random.below(12)).map(|_| init_with_value(random)));
    if random.once_in(8) {
        let left = book::LONGEST - case.bytes().len() - 2;
        case.messages.push(gen::filled_init(random, left));
    }
    report_with_room(random, case.bytes())
}

/// So many cuts of one input follow each other: it loses no byte, one, and so on.
const CUTS: u64 = 64;

/// A generator for what is cut in a case, the same for all cuts of it, and how many bytes it loses at its end.
fn losing(case: u64) -> (Random, usize) {
    (Random::new(case / CUTS), (case % CUTS) as usize)
}

/// Bytes without so many at their end.
fn without_tail(mut bytes: Vec<u8>, lost: usize) -> Vec<u8> {
    bytes.truncate(bytes.len().saturating_sub(lost));
    bytes
}

/// A stream of the meters' namespace 0, short enough to be cut anywhere, and cut there.
fn meters_cut(case: u64) -> Vec<u8> {
    let (mut random, lost) = losing(case);
    without_tail(gen::stream(&mut random, &gen::METERS, 0, CUTS as usize, Rules::Kept), lost)
}

/// A number of three, five or nine bytes without at least one of them.
pub fn cut_bigsize(case: u64, random: &mut Random) -> BigSizeRead {
    let (first, width) = [(253, 3), (254, 5), (255, 9)][(case % 3) as usize];
    let mut bytes = random.bytes(width);
    bytes[0] = first;
    bytes.truncate(random.below(width));
    BigSizeRead { bytes }
}

/// A stream cut at every length, and a room for its index.
pub fn cut_stream(case: u64, random: &mut Random) -> StreamRead {
    with_room(random, gen::METERS.to_vec(), 0, meters_cut(case))
}

/// A stream in the value of a record, at times with another record behind it.
fn inside(random: &mut Random, stream: &[u8]) -> Vec<u8> {
    let mut outer = gen::records_of([6], stream);
    if random.once_in(2) {
        outer.extend(gen::records_of([8], &[1; 3]));
    }
    outer
}

/// A stream cut at every length that lies one to three levels deep.
pub fn nested_cut(case: u64, random: &mut Random) -> StreamCount {
    let levels = 1 + random.below(3);
    let stream = (0..levels).fold(meters_cut(case), |stream, _| inside(random, &stream));
    StreamCount { table: gen::METERS.to_vec(), namespace: 0, stream }
}

/// A stream whose last record announces any length, often close to 2^64, and has fewer bytes; at times it is nested.
pub fn announced(random: &mut Random) -> StreamCount {
    let there = random.below(40);
    let length = high_number(random).max(there as u64 + 1);
    let mut stream = gen::records_of([1], &[42]);
    stream.extend(gen::bigsize_form(9, 1));
    stream.extend(gen::bigsize_form(length, bigsize::width(length)));
    stream.extend(random.bytes(there));
    let levels = random.below(stream::LEVELS as usize);
    let stream = (0..levels).fold(stream, |stream, _| inside(random, &stream));
    StreamCount { table: gen::METERS.to_vec(), namespace: 0, stream }
}

/// A stream cut at every length, and a type that it often has.
pub fn contained_in_cut(case: u64, random: &mut Random) -> StreamContains {
    let kind = random.one_of(&[0, 1, 2, 3, 4, 6, 8, 11]);
    StreamContains { table: gen::METERS.to_vec(), namespace: 0, stream: meters_cut(case), kind }
}

/// The same, asked for the type's value.
pub fn value_in_cut(case: u64, random: &mut Random) -> StreamValue {
    let StreamContains { table, namespace, stream, kind } = contained_in_cut(case, random);
    StreamValue { table, namespace, stream, kind }
}

/// A row whose value is a stream cut at every length, at times behind another row, and a room.
pub fn written_cut(case: u64, random: &mut Random) -> StreamWrite {
    let (table, source) = (gen::METERS.to_vec(), meters_cut(case));
    let mut triples = vec![6, 0, source.len() as u64];
    if random.once_in(2) {
        triples.splice(..0, [1, 0, 0]);
    }
    let length = stream_writer::measure(&table, 0, &triples, &source).unwrap_or(9);
    StreamWrite { table, namespace: 0, triples, source, room: random.room(length) }
}

/// A message that loses up to 63 bytes, of its extension first, and a room.
pub fn cut_message(case: u64, random: &mut Random) -> MessageRead {
    let (mut of_message, lost) = losing(case);
    let message = without_tail(gen::message(&mut of_message, Rules::Kept), lost);
    MessageRead { message, room: stream::ROW_NUMBERS * 32 + random.below(4) }
}

/// An init with an address that loses up to 63 bytes of its extension.
pub fn address_in_cut(case: u64, _: &mut Random) -> MessageAddress {
    let (mut random, lost) = losing(case);
    let address = gen::descriptor(&mut random).bytes();
    MessageAddress { message: without_tail(gen::init_with_address(&mut random, &address), lost) }
}

/// A book of streams and messages that have lost bytes at their ends.
pub fn report_of_cuts(random: &mut Random) -> BookReport {
    let mut case = gen::BookCase { table: gen::METERS.to_vec(), ..gen::BookCase::default() };
    for _ in 0..random.below(12) {
        let stream = meters_cut(random.below(1 << 20) as u64);
        case.streams.push((0, if random.once_in(3) { inside(random, &stream) } else { stream }));
        case.streams.push((0, announced(random).stream));
        let message = cut_message(random.below(1 << 20) as u64, random).message;
        case.messages.extend((message.len() < 4_000).then_some(message));
    }
    report_with_room(random, case.bytes())
}

/// A text for the till profile.
pub fn till_profile(random: &mut Random) -> TillProfile {
    TillProfile { text: gen::till_text(random) }
}

/// An invoice that breaks at most two rules of the till profile: none, each alone and all pairs, in turn.
pub fn at_most_two_rules(case: u64, random: &mut Random) -> TillProfile {
    let sets: Vec<u8> = gen::at_most_two_rules().collect();
    TillProfile { text: gen::till_invoice(random, sets[case as usize % sets.len()]) }
}

/// An invoice that breaks any of the rules, each set of them in turn.
pub fn any_rules(case: u64, random: &mut Random) -> TillProfile {
    TillProfile { text: gen::till_invoice(random, (case % u64::from(gen::RULE_SETS)) as u8) }
}

/// An invoice that would break any of the rules and is refused.
pub fn refused_till(case: u64, random: &mut Random) -> TillProfile {
    TillProfile { text: gen::refused_till(random, (case % u64::from(gen::RULE_SETS)) as u8) }
}

/// A field of these groups.
fn field_of(kind: u8, content: &[u8]) -> Vec<u8> {
    let size = content.len();
    [&[kind, (size / 32) as u8, (size % 32) as u8], content].concat()
}

/// An invoice of an amount and fields, with zeros for time and signature, in upper case at times.
fn till_of(random: &mut Random, amount: &str, fields: &[Vec<u8>]) -> TillProfile {
    let groups = [&[0; invoice::TIME_GROUPS], &fields.concat()[..], &[0; invoice::SIGNATURE_GROUPS]].concat();
    let mut text = gen::closed_text(format!("lnbc{amount}").as_bytes(), &groups);
    if random.once_in(4) {
        text.make_ascii_uppercase();
    }
    TillProfile { text }
}

/// So many groups a field has at most in [`till_field`]: two entries of a route are 164.
const TILL_GROUPS: u64 = 170;

/// The types of fields that the rules are about, and another.
const TILL_KINDS: [u8; 8] = [invoice::P, invoice::D, invoice::H, invoice::N, invoice::R, invoice::X, invoice::C, 9];

/// How many cases [`till_field`] has: each type with each number of groups and each last group.
pub const TILL_FIELDS: u64 = TILL_KINDS.len() as u64 * (TILL_GROUPS + 1) * 32;

/// An invoice with one field beside a p and, unless it is a d or an h, a d. Its last group is any, and those before it are
/// all 0 or all 1.
pub fn till_field(case: u64, random: &mut Random) -> TillProfile {
    let (last, size) = ((case % 32) as u8, (case / 32 % (TILL_GROUPS + 1)) as usize);
    let kind = TILL_KINDS[(case / 32 / (TILL_GROUPS + 1)) as usize];
    let mut content = vec![last & 1; size];
    content.iter_mut().skip(size.saturating_sub(1)).for_each(|group| *group = last);
    let mut fields = vec![field_of(invoice::P, &[0; 52]), field_of(kind, &content)];
    if ![invoice::D, invoice::H].contains(&kind) {
        fields.push(field_of(invoice::D, &[]));
    }
    till_of(random, "", &fields)
}

/// How many cases [`till_amount`] has: each letter and none, 1 to 120, and up to 18 zeros behind.
pub const TILL_AMOUNTS: u64 = 5 * 120 * 19;

/// An invoice that keeps all rules but for its amount.
pub fn till_amount(case: u64, random: &mut Random) -> TillProfile {
    let letter = ["", "m", "u", "n", "p"][(case % 5) as usize];
    let (number, zeros) = (1 + case / 5 % 120, "0".repeat((case / 600) as usize));
    let fields = [field_of(invoice::P, &[0; 52]), field_of(invoice::D, &[])];
    till_of(random, &format!("{number}{zeros}{letter}"), &fields)
}

/// A text of 4,096 characters with as many fields as fit; whole, with some groups changed and closed again, or damaged.
pub fn long_till(random: &mut Random) -> TillProfile {
    TillProfile { text: long_invoice(random).text }
}

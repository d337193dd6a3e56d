//! Pseudo-random inputs: no panic, buffers unchanged on a refusal and behind an answer, and round trips.

use std::collections::BTreeMap;

use tockplover_reference::gen::{self, Random, Rules};
use tockplover_reference::message::Message;
use tockplover_reference::table::Extension;
use tockplover_reference::{
    address, bech32, bigsize, book, field, invoice, invoice_writer, mender, message, message_writer, money, month,
    stream, stream_writer, table, Part, Refusal,
};

/// What every lent buffer holds before a question.
const BEFORE: u8 = 0xa5;

/// How often each answer came: 0 for an accepted input, else the refusal's number.
#[derive(Default)]
struct Answers(BTreeMap<u8, usize>);

impl Answers {
    /// Counts an answer. Bytes are missing from what is cut short, and from nothing else.
    fn add<T>(&mut self, answer: &Result<T, Refusal>) {
        let number = answer.as_ref().map_or_else(|refusal| refusal.number, |_| 0);
        let missing = answer.as_ref().map_or_else(|refusal| refusal.missing, |_| 0);
        assert_eq!(missing > 0, matches!(number, 1 | 4 | 6 | 13));
        *self.0.entry(number).or_default() += 1;
    }

    /// Every one of these came, and nothing else.
    fn are(&self, expected: &[u8]) {
        assert_eq!(self.0.keys().copied().collect::<Vec<_>>(), expected, "{:?}", self.0);
    }
}

/// From `filled` on, or altogether on a refusal, the buffer is as it came.
fn kept<T>(out: &[u8], answer: &Result<T, Refusal>, filled: impl Fn(&T) -> usize) {
    let filled = answer.as_ref().map_or(0, filled);
    assert!(out[filled..].iter().all(|&byte| byte == BEFORE));
}

fn index_kept<T>(index: &[u64], answer: &Result<T, Refusal>, filled: impl Fn(&T) -> usize) {
    let filled = answer.as_ref().map_or(0, filled);
    assert!(index[filled..].iter().all(|&number| number == u64::from(BEFORE)));
}

#[test]
fn bigsizes() {
    let mut random = Random::new(1);
    let mut answers = Answers::default();
    for _ in 0..20_000 {
        let bytes = gen::bigsize_bytes(&mut random);
        let read = bigsize::read(&bytes);
        answers.add(&read);
        if let Ok(read) = read {
            let mut out = [BEFORE; 9];
            assert_eq!(bigsize::write(read.value, &mut out), Ok(read.width));
            assert_eq!(out[..read.width], bytes[..read.width]);
        }
        let value = random.wide_number();
        let mut out = vec![BEFORE; random.room(bigsize::width(value))];
        let written = bigsize::write(value, &mut out);
        kept(&out, &written, |&width| width);
        if let Ok(width) = written {
            assert_eq!(bigsize::read(&out), Ok(bigsize::BigSize { value, width }));
        }
    }
    answers.are(&[0, 1, 2, 13]);
}

#[test]
fn tables() {
    let mut random = Random::new(2);
    let mut answers = Answers::default();
    let (mut extended, mut lacked, mut refused) = (0, 0, 0);
    for _ in 0..10_000 {
        let table = gen::any_table(&mut random);
        let checked = table::check(&table);
        answers.add(&checked);
        let (namespace, kind) = (random.below(4) as u64, random.wide_number());
        let kind = table.get(1).copied().filter(|_| random.once_in(2)).unwrap_or(kind);
        let found = table::find_row(&table, namespace, kind);
        if checked.is_ok() {
            assert_eq!(found, table::walk_rows(&table, namespace, kind));
        }
        let (older, newer) = gen::table_pair(&mut random);
        let has = |row: &[u64]| newer.chunks(4).any(|candidate| candidate == row);
        match table::extends(&older, &newer) {
            Extension::Extends => {
                extended += 1;
                assert!(older.chunks(4).all(has));
            }
            Extension::Lacks(row) => {
                lacked += 1;
                assert_eq!(older.chunks(4).position(|row| !has(row)), Some(row));
            }
            Extension::OlderRefused(refusal) => {
                refused += 1;
                assert_eq!(table::check(&older), Err(refusal));
            }
            Extension::NewerRefused(refusal) => {
                assert_eq!(table::check(&older), Ok(()));
                assert_eq!(table::check(&newer), Err(refusal));
            }
        }
    }
    answers.are(&[0, 60, 61, 62, 63]);
    assert!(extended > 100 && lacked > 100 && refused > 100);
}

#[test]
fn few_of_many_rows() {
    let mut random = Random::new(19);
    let mut answers = Answers::default();
    for _ in 0..4_000 {
        let gen::StreamCase { table, namespace, stream: bytes, asked } = gen::few_of_many_rows(&mut random);
        let counts = stream::count(&table, namespace, &bytes);
        assert_eq!(stream::count_walking(&table, namespace, &bytes), counts);
        assert_eq!(table::find_row(&table, namespace, asked), table::walk_rows(&table, namespace, asked));
        answers.add(&counts);
    }
    answers.are(&[0, 7]);
}

#[test]
fn streams() {
    let mut random = Random::new(3);
    let mut answers = Answers::default();
    for _ in 0..8_000 {
        let gen::StreamCase { table, namespace, stream: bytes, asked } = gen::stream_case(&mut random);
        let counts = stream::count(&table, namespace, &bytes);
        assert_eq!(stream::count_walking(&table, namespace, &bytes), counts);
        let records = counts.map_or(random.below(9), |counts| counts.records);
        let mut index = vec![u64::from(BEFORE); random.room(4 * records)];
        let mut walked = index.clone();
        let read = stream::read(&table, namespace, &bytes, &mut index);
        assert_eq!(stream::read_walking(&table, namespace, &bytes, &mut walked), read);
        assert_eq!(walked, index);
        answers.add(&read);
        index_kept(&index, &read, |counts| 4 * counts.records);
        match read {
            Ok(_) => {
                assert_eq!(read, counts);
                written_back(&table, namespace, &bytes, &index[..4 * records]);
            }
            Err(refusal) if refusal.number == 12 => assert!(counts.is_ok() && index.len() < 4 * records),
            Err(_) => assert_eq!(read, counts),
        }
        behind_other_bytes(&mut random, &table, namespace, &bytes);
        asked_for(&table, namespace, &bytes, asked);
    }
    answers.are(&[0, 1, 2, 3, 4, 5, 6, 7, 8, 9, 10, 11, 12, 14, 60, 61, 62, 63]);
}

/// An accepted stream is written back to the same bytes from its own index.
fn written_back(table: &[u64], namespace: u64, bytes: &[u8], index: &[u64]) {
    let triples: Vec<u64> = index.chunks(4).flat_map(|row| &row[..3]).copied().collect();
    let mut back = vec![BEFORE; bytes.len()];
    assert_eq!(stream_writer::write(table, namespace, &triples, bytes, &mut back), Ok(bytes.len()));
    assert_eq!(back, bytes);
    assert!(index.chunks(4).is_sorted_by(|a, b| a[0] < b[0]));
    for row in index.chunks(4) {
        assert_eq!(row[3] == 1, table::find_row(table, namespace, row[0]).is_some());
    }
}

/// Behind other bytes a stream gets the same answer, with places and starts that much further on.
fn behind_other_bytes(random: &mut Random, table: &[u64], namespace: u64, bytes: &[u8]) {
    let begin = random.below(12);
    let moved = [&random.bytes(begin), bytes].concat();
    let room = stream::count(table, namespace, bytes).map_or(0, |counts| 4 * counts.records);
    let (mut index, mut other) = (vec![0; room], vec![0; room]);
    let alone = stream::read(table, namespace, bytes, &mut index);
    let behind = stream::read_from(begin, table, namespace, &moved, &mut other);
    match alone {
        Err(refusal @ Refusal { number: 1..=11, .. }) => {
            assert_eq!(behind, Err(Refusal { place: refusal.place + begin, ..refusal }));
        }
        _ => assert_eq!(behind, alone),
    }
    for (row, moved) in index.chunks(4).zip(other.chunks(4)) {
        assert_eq!(moved, [row[0], row[1] + begin as u64, row[2], row[3]]);
    }
}

fn asked_for(table: &[u64], namespace: u64, bytes: &[u8], kind: u64) {
    let located = stream::locate(table, namespace, bytes, kind);
    assert_eq!(stream::contains(table, namespace, bytes, kind), located.map(|_| ()));
    let value = stream::value(table, namespace, bytes, kind);
    match (stream::count(table, namespace, bytes), located) {
        (Ok(_), Ok(Part { start, length })) => assert_eq!(value, &bytes[start..start + length]),
        (Ok(_), Err(refusal)) => {
            assert_eq!(refusal, Refusal::at(15, 0, kind));
            assert!(value.is_empty());
        }
        (Err(refusal), located) => {
            assert_eq!(located, Err(refusal));
            assert!(value.is_empty());
        }
    }
}

#[test]
fn written_streams() {
    let mut random = Random::new(4);
    let mut answers = Answers::default();
    for _ in 0..12_000 {
        let gen::TriplesCase { table, namespace, triples, source } = gen::triples_case(&mut random);
        let measured = stream_writer::measure(&table, namespace, &triples, &source);
        let mut out = vec![BEFORE; random.room(measured.unwrap_or(9))];
        let written = stream_writer::write(&table, namespace, &triples, &source, &mut out);
        answers.add(&written);
        kept(&out, &written, |&length| length);
        match written {
            Ok(length) => {
                let counts = stream::count(&table, namespace, &out[..length]).unwrap();
                assert_eq!(counts.records, triples.len() / 3);
            }
            Err(refusal) if refusal.number == 12 => assert!(measured.is_ok_and(|length| length > out.len())),
            Err(_) => assert_eq!(written, measured),
        }
    }
    answers.are(&[0, 1, 2, 3, 4, 5, 6, 7, 8, 9, 10, 11, 12, 14, 16, 60, 61, 62, 63]);
}

#[test]
fn addresses() {
    let mut random = Random::new(20);
    let (mut answers, mut written_answers) = (Answers::default(), Answers::default());
    for _ in 0..20_000 {
        let value = gen::address_value(&mut random);
        let read = address::read(&value);
        answers.add(&read);
        assert_eq!(address::is_descriptor(&value), read.is_ok());
        let judged = stream_writer::measure(&[0, 0, table::ADDRESS, 0], 0, &[0, 0, value.len() as u64], &value);
        assert_eq!(judged.map(|_| ()), read.map(|_| ()));
        if let Ok(address::Descriptor { kind, rest }) = read {
            let mut back = vec![BEFORE; value.len()];
            assert_eq!(address::write(kind, &value[rest.start..rest.end()], &mut back), Ok(value.len()));
            assert_eq!(back, value);
        }
        let case = gen::address_case(&mut random);
        let mut out = vec![BEFORE; random.room(1 + case.rest.len())];
        let written = address::write(case.kind, &case.rest, &mut out);
        written_answers.add(&written);
        kept(&out, &written, |&length| length);
        if let Ok(length) = written {
            assert_eq!(out[..length], case.bytes());
        }
        assert_eq!(written == Err(Refusal::bare(8)), address::read(&case.bytes()).is_err());
    }
    answers.are(&[0, 8]);
    written_answers.are(&[0, 8, 12]);
}

#[test]
fn messages() {
    let mut random = Random::new(5);
    let (mut answers, mut addresses) = (Answers::default(), Answers::default());
    for _ in 0..20_000 {
        let bytes = gen::any_message(&mut random);
        let judged = message::judge(&bytes);
        let records = |message: &Message| message.extension().map_or(0, |extension| extension.counts.records);
        let mut index = vec![u64::from(BEFORE); random.room(4 * judged.as_ref().map_or(2, records))];
        let read = message::read(&bytes, &mut index);
        answers.add(&read);
        index_kept(&index, &read, |message| 4 * records(message));
        let address = message::address(&bytes);
        addresses.add(&address);
        if let Ok(answer) = read {
            let index = &index[..4 * records(&answer)];
            message_written_back(&bytes, &answer, index);
            assert_eq!(address, address_by_index(&answer, index));
        }
        assert_eq!(address.is_err_and(|refusal| refusal.number != 15), judged.is_err());
    }
    answers.are(&[0, 1, 2, 3, 4, 5, 6, 7, 8, 12, 20, 21, 22]);
    addresses.are(&[0, 1, 2, 3, 4, 5, 6, 7, 8, 15, 20, 21, 22]);
}

/// The address of a message by the rows of its index.
fn address_by_index(answer: &Message, index: &[u64]) -> Result<Part, Refusal> {
    let row = index.chunks(4).find(|row| answer.kind() == message::INIT && row[0] == message::REMOTE_ADDR);
    let part = row.map(|row| Part { start: row[1] as usize, length: row[2] as usize });
    part.ok_or(Refusal::at(15, 0, message::REMOTE_ADDR))
}

fn message_written_back(bytes: &[u8], answer: &Message, index: &[u64]) {
    let at = |part: Part| &bytes[part.start..part.end()];
    let (first, last, wanted) = match *answer {
        Message::Init { globalfeatures, features, .. } => (at(globalfeatures), at(features), 0),
        Message::Error { channel, data, .. } | Message::Warning { channel, data, .. } => (at(channel), at(data), 0),
        Message::Ping { wanted, filler, .. } => (&[][..], at(filler), wanted),
        Message::Pong { filler, .. } => (&[][..], at(filler), 0),
        Message::PassedOver { .. } => return,
    };
    let triples: Vec<u64> = index.chunks(4).flat_map(|row| &row[..3]).copied().collect();
    let mut back = vec![BEFORE; bytes.len()];
    let written = message_writer::write(answer.kind().into(), first, last, wanted, &triples, bytes, &mut back);
    assert_eq!(written, Ok(bytes.len()));
    assert_eq!(back, bytes);
}

#[test]
fn written_messages() {
    let mut random = Random::new(6);
    let mut answers = Answers::default();
    for _ in 0..10_000 {
        let case = gen::message_case(&mut random);
        let write = |out: &mut [u8]| {
            message_writer::write(case.kind, &case.first, &case.last, case.wanted, &case.triples, &case.source, out)
        };
        let length = write(&mut vec![0; 65_535]);
        let mut out = vec![BEFORE; random.room(length.unwrap_or(9))];
        let written = write(&mut out);
        answers.add(&written);
        kept(&out, &written, |&length| length);
        if let Ok(length) = written {
            assert_eq!(message::judge(&out[..length]).map(|message| u64::from(message.kind())), Ok(case.kind));
        }
        let (a, b) = gen::feature_maps(&mut random);
        let mut out = vec![BEFORE; random.room(a.len().max(b.len()))];
        let joined = message::join_features(&a, &b, &mut out);
        kept(&out, &joined, |&length| length);
        let wanted = gen::wanted(&mut random);
        let mut out = vec![BEFORE; random.room(if wanted < 65_532 { 4 + wanted as usize } else { 4 })];
        let pong = message::pong(wanted, &mut out);
        kept(&out, &pong, |length| length.unwrap_or(0));
        if let Ok(Some(length)) = pong {
            let filler = Part { start: 4, length: wanted as usize };
            assert!(matches!(message::judge(&out[..length]), Ok(Message::Pong { filler: f, .. }) if f == filler));
        }
        assert_eq!(pong == Ok(None), wanted >= 65_532);
    }
    answers.are(&[0, 3, 7, 8, 12, 16, 20, 21, 22]);
}

#[test]
fn invoices() {
    let mut random = Random::new(7);
    let mut answers = Answers::default();
    for _ in 0..20_000 {
        let rules = Rules::any(&mut random);
        let text = gen::invoice_text(&mut random, rules);
        let judged = invoice::judge(&text);
        assert!(rules == Rules::BrokenAtTimes || judged.is_ok());
        let (groups, fields) = judged.map_or((9, 9), |invoice| (invoice.groups, invoice.fields));
        let mut groups = vec![BEFORE; random.room(groups)];
        let mut index = vec![u64::from(BEFORE); random.room(3 * fields)];
        let read = invoice::read(&text, &mut groups, &mut index);
        answers.add(&read);
        kept(&groups, &read, |invoice| invoice.groups);
        index_kept(&index, &read, |invoice| 3 * invoice.fields);
        if let Ok(invoice) = read {
            invoice_written_back(&text, &invoice, &groups[..invoice.groups]);
        }
    }
    answers.are(&[0, 12, 30, 31, 32, 33, 34, 35, 36, 37, 38, 39, 40]);
}

fn invoice_written_back(text: &[u8], invoice: &invoice::Invoice, groups: &[u8]) {
    let amount = &text[invoice.amount.start..invoice.amount.end()];
    let (front, signature) = groups.split_at(groups.len() - 104);
    let mut back = vec![BEFORE; text.len()];
    let prefix = invoice.prefix.into();
    let written = invoice_writer::write(prefix, amount, invoice.time, &front[7..], signature, &mut back);
    assert_eq!(written, Ok(text.len()));
    assert_eq!(back, text.to_ascii_lowercase());
    assert_eq!(invoice.msat, (!amount.is_empty()).then(|| money::read_amount(amount).unwrap()));
}

#[test]
fn written_invoices() {
    let mut random = Random::new(8);
    let mut answers = Answers::default();
    for _ in 0..20_000 {
        let rules = Rules::any(&mut random);
        let case = gen::invoice_case(&mut random, rules);
        let gen::InvoiceCase { prefix, amount, time, fields, signature } = &case;
        let mut out = vec![BEFORE; random.room(122 + amount.len() + fields.len())];
        let written = invoice_writer::write(*prefix, amount, *time, fields, signature, &mut out);
        answers.add(&written);
        kept(&out, &written, |&length| length);
        if let Ok(length) = written {
            let invoice = invoice::judge(&out[..length]).unwrap();
            assert_eq!((u64::from(invoice.prefix), invoice.time), (*prefix, *time));
            assert_eq!(out[..length], gen::text_of(&case).to_ascii_lowercase());
        }
    }
    answers.are(&[0, 12, 30, 34, 36, 37, 38, 39, 40, 42]);
}

#[test]
fn fields() {
    let mut random = Random::new(9);
    let (mut answers, mut entries) = (Answers::default(), Answers::default());
    for _ in 0..20_000 {
        let gen::FieldCase { groups, kind, start, size, entry } = gen::field_case(&mut random);
        let count = bech32::whole_bytes(size.min(1_000) as usize);
        let mut out = vec![BEFORE; random.room(count)];
        let bytes = invoice::field_bytes(&groups, start, size, &mut out);
        answers.add(&bytes);
        kept(&out, &bytes, |&count| count);
        let number = invoice::field_number(&groups, start, size);
        answers.add(&number);
        if number.is_ok_and(|number| number > 0) && start < groups.len() as u64 {
            let mut back = [BEFORE; 15];
            let made = field::from_number(6, number.unwrap(), &mut back).unwrap();
            let shortest = groups[start as usize..][..size as usize].iter().skip_while(|&&group| group == 0);
            assert!(shortest.eq(&back[3..made]));
        }
        let routes = invoice::route_size(&groups, kind, start, size);
        let mut key = vec![BEFORE; random.room(33)];
        let hop = invoice::route_entry(&groups, kind, start, size, entry, &mut key);
        entries.add(&hop);
        kept(&key, &hop, |hop| hop.map_or(0, |_| 33));
        assert_eq!(hop == Ok(None), routes.is_ok_and(|entries| entries as u64 <= entry));
        made_fields(&mut random);
    }
    answers.are(&[0, 12, 16, 34, 38]);
    entries.are(&[0, 12, 16, 34]);
}

/// What is made of bytes is read back as these bytes.
fn made_fields(random: &mut Random) {
    let kind = random.below(34) as u64;
    let count = if random.once_in(20) { 630 + random.below(20) } else { random.below(60) };
    let bytes = random.bytes(count);
    let mut out = vec![BEFORE; random.room(3 + bech32::groups_for(bytes.len()))];
    let made = field::from_bytes(kind, &bytes, &mut out);
    kept(&out, &made, |&count| count);
    if let Ok(made) = made {
        let mut back = vec![BEFORE; bytes.len()];
        assert_eq!(invoice::field_bytes(&out, 3, made as u64 - 3, &mut back), Ok(bytes.len()));
        assert_eq!(back, bytes);
    }
}

#[test]
fn amounts() {
    let mut random = Random::new(10);
    let mut answers = Answers::default();
    for _ in 0..20_000 {
        let rules = Rules::any(&mut random);
        let text = gen::amount(&mut random, rules);
        let amount = money::read_amount(&text);
        answers.add(&amount);
        assert_eq!(money::read_amount(&text.to_ascii_uppercase()), amount);
        if let Ok(msat) = amount {
            assert!(msat <= money::HIGHEST);
            assert_eq!(money::to_sat(msat).is_ok(), msat.0 % 1_000 == 0);
        }
    }
    answers.are(&[0, 37]);
}

#[test]
fn books() {
    let mut random = Random::new(11);
    let mut answers = Answers::default();
    let mut first_words = BTreeMap::<String, usize>::new();
    for _ in 0..4_000 {
        let book = gen::book(&mut random);
        let mut whole = vec![BEFORE; 1 << 16];
        let length = book::report(&book, &mut whole).unwrap();
        kept(&whole, &Ok(length), |&length| length);
        let mut out = vec![BEFORE; random.room(length)];
        let report = book::report(&book, &mut out);
        answers.add(&report);
        kept(&out, &report, |&length| length);
        if report.is_ok() {
            assert_eq!(out[..length], whole[..length]);
        }
        let text = std::str::from_utf8(&whole[..length]).unwrap();
        assert!(text.ends_with('\n'));
        let words = text.lines().next().unwrap();
        let words = if words.starts_with("rows") { "rows" } else { words };
        *first_words.entry(words.to_string()).or_default() += 1;
    }
    answers.are(&[0, 12]);
    let refused = [60, 61, 62, 63, 70, 71, 72].map(|number| format!("book refused {number}"));
    assert!(refused.iter().all(|words| first_words.contains_key(words)), "{first_words:?}");
}

/// What the figures are made of: all outer records of accepted streams by their pair, and all accepted amounts.
#[derive(Default)]
struct Met {
    records: BTreeMap<(u64, u64), [u64; 5]>,
    bytes: u64,
    amounts: Vec<Option<u64>>,
}

impl Met {
    fn add_book(&mut self, case: &gen::BookCase) {
        let whole_rows = &case.table[..case.table.len() / 4 * 4];
        for (namespace, bytes) in &case.streams {
            let namespace = u64::from(*namespace);
            let mut index = vec![0; 2 * bytes.len()];
            if let Ok(counts) = stream::read(whole_rows, namespace, bytes, &mut index) {
                self.bytes += bytes.len() as u64;
                self.add_records(namespace, &index[..4 * counts.records]);
            }
        }
        let accepted = case.invoices.iter().filter_map(|text| invoice::judge(text).ok());
        self.amounts.extend(accepted.map(|invoice| invoice.msat.map(|msat| msat.0)));
    }

    fn add_records(&mut self, namespace: u64, index: &[u64]) {
        let mut behind = 0;
        for row in index.chunks(4) {
            let numbers = self.records.entry((namespace, row[0])).or_default();
            let place = if row[3] == 1 { 0 } else { 2 };
            numbers[place] += 1;
            numbers[place + 1] += row[2];
            numbers[4] += row[1] - behind;
            behind = row[1] + row[2];
        }
    }

    /// Whether these are the figures after so many books.
    fn are(&self, figures: &month::Figures, books: u64) -> bool {
        let rows = figures.rows[..figures.pairs].iter().map(|row| {
            let numbers = [row.known, row.known_bytes, row.passed_over, row.passed_over_bytes, row.frame_bytes];
            ((row.namespace, row.kind), numbers)
        });
        let bytes = figures.rows.iter().map(|row| row.known_bytes + row.passed_over_bytes + row.frame_bytes);
        let msat = self.amounts.iter().flatten().map(|&msat| u128::from(msat));
        rows.eq(self.records.iter().map(|(&pair, &numbers)| (pair, numbers)))
            && bytes.sum::<u64>() == self.bytes
            && (figures.books, figures.invoices) == (books, self.amounts.len() as u64)
            && figures.unpriced == self.amounts.iter().filter(|amount| amount.is_none()).count() as u64
            && figures.msat == msat.sum()
    }
}

#[test]
fn months() {
    let mut random = Random::new(12);
    let mut answers = Answers::default();
    for _ in 0..40 {
        let (mut figures, mut met) = (month::empty(), Met::default());
        for books in 1..=1 + random.below(200) {
            let rules = Rules::any(&mut random);
            let case = gen::book_case(&mut random, 8, rules);
            let walked = month::add_walking(figures.clone(), &case.bytes());
            let (next, answer) = month::add(figures, &case.bytes());
            assert_eq!(walked, (next.clone(), answer));
            answers.add(&answer);
            if answer.is_ok() || answer == Err(Refusal::bare(73)) {
                met.add_book(&case);
            }
            assert_eq!(answer == Err(Refusal::bare(73)), met.records.len() > month::MOST_PAIRS);
            assert!(if next.are_none() { next == month::none() } else { met.are(&next, books as u64) });
            figures = next;
        }
    }
    answers.are(&[0, 60, 61, 62, 63, 73]);
}

/// A number in any form at the front of the bytes, and its width, 0 where it is cut short.
fn in_any_form(bytes: &[u8]) -> (u64, usize) {
    let width = match bytes.first() {
        None => return (0, 0),
        Some(253) => 3,
        Some(254) => 5,
        Some(255) => 9,
        Some(&only) => return (only.into(), 1),
    };
    let digits = bytes.get(1..width).unwrap_or(&[]);
    (digits.iter().fold(0, |value, &digit| value << 8 | u64::from(digit)), if digits.is_empty() { 0 } else { width })
}

/// A record of an old stream: its place, its type and its length in the widths that they have there, and its value.
struct Old<'a> {
    place: usize,
    kind: (u64, usize),
    length: (u64, usize),
    value: &'a [u8],
}

impl Old<'_> {
    fn long(&self) -> usize {
        [self.kind, self.length].iter().filter(|(value, width)| bigsize::width(*value) < *width).count()
    }
}

/// The whole records of an old stream, and how many bytes stand behind them.
fn old_records(bytes: &[u8]) -> (Vec<Old<'_>>, usize) {
    let mut records = Vec::new();
    let mut place = 0;
    loop {
        let kind = in_any_form(&bytes[place..]);
        let length = in_any_form(&bytes[place + kind.1..]);
        let start = place + kind.1 + length.1;
        let whole = kind.1 > 0 && length.1 > 0 && start as u64 + length.0.min(1 << 20) <= bytes.len() as u64;
        if !whole {
            return (records, bytes.len() - place);
        }
        let end = start + length.0 as usize;
        records.push(Old { place, kind, length, value: &bytes[start..end] });
        place = end;
    }
}

/// What the mender answers, by the words of document 02 (x), each record compared with all others.
fn mended_by_words(bytes: &[u8]) -> Result<(Vec<u8>, mender::Changes), Refusal> {
    if bytes.len() > stream::LONGEST {
        return Err(Refusal::bare(14));
    }
    let (records, cut) = old_records(bytes);
    let mut kept: Vec<&Old> = Vec::new();
    for record in &records {
        match kept.iter().find(|earlier| earlier.kind.0 == record.kind.0) {
            Some(earlier) if earlier.value != record.value => {
                return Err(Refusal::at(80, record.place, record.kind.0));
            }
            Some(_) => {}
            None => kept.push(record),
        }
    }
    let lower = |record: &Old| kept.iter().filter(|other| other.kind.0 < record.kind.0).count();
    let moved = kept.iter().enumerate().filter(|(number, record)| lower(record) != *number).count();
    let mut rising = kept.clone();
    rising.sort_by_key(|record| record.kind.0);
    let mut out = Vec::new();
    for record in rising {
        for number in [record.kind.0, record.length.0] {
            let mut shortest = [0; 9];
            let width = bigsize::write(number, &mut shortest).unwrap();
            out.extend(&shortest[..width]);
        }
        out.extend(record.value);
    }
    let respelled = kept.iter().map(|record| record.long()).sum();
    Ok((out, mender::Changes { moved, dropped: records.len() - kept.len(), respelled, cut }))
}

#[test]
fn mended_streams() {
    let mut random = Random::new(13);
    let mut answers = Answers::default();
    let mut unchanged = 0;
    for case in 0..12_000 {
        let bytes = random.one_of(&[4, 20, 60, 200, 900]);
        let bytes = if case % 3_000 == 0 { 66_000 } else { bytes };
        let old = gen::old_stream(&mut random, bytes);
        let expected = mended_by_words(&old);
        let length = expected.as_ref().map_or(9, |(bytes, _)| bytes.len());
        let mut out = vec![BEFORE; random.room(length)];
        let mended = mender::mend(&old, &mut out);
        answers.add(&mended);
        kept(&out, &mended, |mended| mended.length);
        match (mended, expected) {
            (Ok(mended), Ok((bytes, changes))) => {
                assert_eq!((&out[..mended.length], mended.changes), (&bytes[..], changes));
                assert!(mended.length <= old.len());
                mended_again(&bytes);
                unchanged += usize::from(bytes == old);
                assert_eq!(bytes == old, changes == mender::Changes::default());
            }
            (Err(refusal), Ok((bytes, _))) => {
                assert_eq!(refusal, Refusal::bare(12));
                assert!(out.len() < bytes.len());
            }
            (mended, expected) => assert_eq!(mended.err(), expected.err()),
        }
    }
    answers.are(&[0, 12, 14, 80]);
    assert!(unchanged > 100);
}

/// What is mended stays as it is when it is mended again, and is accepted by a table that knows its types.
fn mended_again(bytes: &[u8]) {
    let mut again = vec![BEFORE; bytes.len()];
    let changes = mender::Changes::default();
    assert_eq!(mender::mend(bytes, &mut again), Ok(mender::Mended { length: bytes.len(), changes }));
    assert_eq!(again, bytes);
    let (records, _) = old_records(bytes);
    if records.len() <= table::MOST_ROWS {
        let table: Vec<u64> = records.iter().flat_map(|record| [0, record.kind.0, table::ANY, 0]).collect();
        let counts = stream::Counts { records: records.len(), known: records.len() };
        assert_eq!(stream::count(&table, 0, bytes), Ok(counts));
    }
}

#[test]
fn full_inputs() {
    for step in [2, 100] {
        let full = gen::full_stream(240, step);
        assert!((65_530..=65_535).contains(&full.len()));
        let counts = stream::count(&gen::spaced_rows(5, 240, step), 5, &full);
        assert_eq!(counts.map(|counts| counts.known), Ok(240));
    }
    let invoice = gen::full_invoice();
    assert_eq!(invoice.len(), 4_096);
    assert_eq!(invoice::judge(&invoice).map(|invoice| invoice.fields), Ok(1_305));
    let mut out = vec![0; 1 << 21];
    for book in [gen::full_book(), gen::most_entries()] {
        assert!((63_000..=65_535).contains(&book.len()), "{}", book.len());
        assert!(book::report(&book, &mut out).unwrap() > 10_000);
        assert!(out.starts_with(b"rows"));
    }
}

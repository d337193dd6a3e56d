//! Both sides timed on the same inputs: `cargo run --release --bin bench`, with a number for the seconds of each line
//! and a part of a name for some of them.

use std::hint::black_box;
use std::time::{Duration, Instant};

use tockplover_compare::proved;
use tockplover_reference as reference;
use tockplover_reference::gen::{self, Random, Rules};

/// How long a run is at least, so that the clock's own time does not count.
const RUN: Duration = Duration::from_micros(200);

/// One line of the table.
struct Line<'a> {
    name: String,
    input: String,
    /// The ratio that is not to be passed.
    bar: f64,
    proved: Box<dyn FnMut() -> u64 + 'a>,
    reference: Box<dyn FnMut() -> u64 + 'a>,
}

/// The time of so many calls.
fn run(calls: u32, side: &mut dyn FnMut() -> u64) -> Duration {
    let start = Instant::now();
    for _ in 0..calls {
        black_box(side());
    }
    start.elapsed()
}

/// How many calls make a run.
fn calls_for(side: &mut dyn FnMut() -> u64) -> u32 {
    let mut calls = 1;
    while run(calls, side) < RUN {
        calls *= 2;
    }
    calls
}

/// The least time of one call of each side, in microseconds; the sides take turns, run by run.
fn least_times(line: &mut Line, seconds: f64) -> [f64; 2] {
    let calls = calls_for(&mut line.reference);
    let mut least = [Duration::MAX; 2];
    let start = Instant::now();
    while start.elapsed().as_secs_f64() < seconds {
        least[0] = least[0].min(run(calls, &mut line.proved));
        least[1] = least[1].min(run(calls, &mut line.reference));
    }
    least.map(|time| time.as_secs_f64() * 1e6 / f64::from(calls))
}

/// How long a line is measured, and the part of its name that is asked for.
struct Plan {
    seconds: f64,
    wanted: String,
}

/// Prints the line of a question that both sides answer alike.
fn measure(mut line: Line, plan: &Plan) {
    if !line.name.contains(&plan.wanted) {
        return;
    }
    assert_eq!((line.proved)(), (line.reference)(), "{}", line.name);
    let [proved, reference] = least_times(&mut line, plan.seconds);
    let ratio = proved / reference;
    let mark = if ratio > line.bar { " **above**" } else { "" };
    let Line { name, input, bar, .. } = line;
    println!("| {name} | {input} | {proved:.2} | {reference:.2} | {ratio:.2} | {bar:.1}{mark} |");
}

/// No report has more characters.
const REPORT_MOST: usize = 1_966_198;

/// The bar of all lines but those of stream writing and of a profile against reading.
const BAR: f64 = 1.1;
const WRITING_BAR: f64 = 1.2;
/// The bar of a profile against reading the same invoice.
const PROFILE_BAR: f64 = 1.5;

/// A stream with its table.
struct Sample {
    name: &'static str,
    table: Vec<u64>,
    namespace: u64,
    streams: Vec<Vec<u8>>,
}

impl Sample {
    /// How many streams, bytes and rows there are.
    fn input(&self) -> String {
        let bytes: usize = self.streams.iter().map(Vec::len).sum();
        let rows = self.table.len() / 4;
        match self.streams.len() {
            1 => format!("{bytes} bytes, {rows} rows"),
            streams => format!("{streams} streams, {bytes} bytes, {rows} rows"),
        }
    }
}

/// Records of rising types with lengths of one and three bytes, until the stream is full.
fn mixed_widths() -> Vec<u8> {
    let mut random = Random::new(3);
    let mut kinds: Vec<u64> = (0..900).map(|_| random.wide_number() | 1).collect();
    kinds.sort_unstable();
    kinds.dedup();
    let mut stream = Vec::new();
    let mut buffer = [0; 9];
    for kind in kinds {
        let length = if random.once_in(8) { 253 + random.below(150) } else { random.below(60) };
        for number in [kind, length as u64] {
            let width = reference::bigsize::write(number, &mut buffer).expect("nine bytes suffice");
            stream.extend(&buffer[..width]);
        }
        stream.extend(random.bytes(length));
    }
    assert!(stream.len() <= reference::stream::LONGEST);
    stream
}

/// The streams that are read and written.
fn samples() -> Vec<Sample> {
    let mut random = Random::new(1);
    let nested = (0..200).map(|_| gen::stream(&mut random, &gen::METERS, 0, 2_000, Rules::Kept)).collect();
    let full = |name, rows, step| Sample {
        name,
        table: gen::spaced_rows(5, rows, step),
        namespace: 5,
        streams: vec![gen::full_stream(rows, step)],
    };
    let small = full("small records", 4, 2);
    vec![
        Sample { name: "mixed widths", table: small.table.clone(), namespace: 0, streams: vec![mixed_widths()] },
        small,
        Sample { name: NESTED, table: gen::METERS.to_vec(), namespace: 0, streams: nested },
        full(DENSE, 240, 2),
        full(FAR_APART, 240, 100),
        Sample { name: UNKNOWN, table: gen::spaced_rows(5, 240, 2), namespace: 5, streams: unknown_types() },
    ]
}

/// Streams of all the types between the rows of a table, none of which it knows.
fn unknown_types() -> Vec<Vec<u8>> {
    vec![gen::records_of((0..240).map(|row| 2 * row + 1), &[42]); 60]
}

/// Streams inside streams, by a table of few rows.
const NESTED: &str = "nested";
/// Many rows, with types close together, with types far apart, and with no type known of those between the rows.
const DENSE: &str = "240 rows";
const FAR_APART: &str = "240 rows far apart";
const UNKNOWN: &str = "240 rows, no type known";

/// The sum of what a question answers for each of the inputs, or a number that no answer is.
fn sum<T>(inputs: &[T], mut ask: impl FnMut(&T) -> Result<usize, reference::Refusal>) -> u64 {
    inputs.iter().map(|input| ask(black_box(input)).map_or(u64::MAX / 65_536, |answer| answer as u64)).sum()
}

/// How the plain side reads a stream.
type Reader = fn(&[u64], u64, &[u8], &mut [u64]) -> Result<reference::stream::Counts, reference::Refusal>;

/// The line of a sample that is read into an index.
fn stream_read(plan: &Plan, name: String, sample: &Sample, read: Reader) {
    let (table, namespace, streams) = (&sample.table[..], sample.namespace, &sample.streams[..]);
    let (mut index, mut other) = (vec![0; 1 << 17], vec![0; 1 << 17]);
    let records = |counts: reference::stream::Counts| counts.records;
    let line = Line {
        name,
        input: sample.input(),
        bar: BAR,
        proved: Box::new(|| {
            sum(streams, |stream| proved::stream::read(table, namespace, stream, &mut index).map(records))
        }),
        reference: Box::new(|| sum(streams, |stream| read(table, namespace, stream, &mut other).map(records))),
    };
    measure(line, plan);
}

fn stream_reading(plan: &Plan) {
    for sample in samples() {
        stream_read(plan, format!("stream read, {}", sample.name), &sample, reference::stream::read);
        // The plain side that walks the rows from the front: faster than halving where they are few, and what request (ii)
        // of document 02 asks to be measured against where they are many.
        if [NESTED, DENSE, FAR_APART, UNKNOWN].contains(&sample.name) {
            let name = format!("stream read, {}, against walking", sample.name);
            stream_read(plan, name, &sample, reference::stream::read_walking);
        }
    }
}

fn stream_writing(plan: &Plan) {
    for sample in samples() {
        let (table, namespace) = (&sample.table[..], sample.namespace);
        let triples = |stream: &Vec<u8>| (gen::triples_of(table, namespace, stream), stream.clone());
        let inputs: Vec<_> = sample.streams.iter().map(triples).collect();
        let (mut out, mut other) = (vec![0; 65_535], vec![0; 65_535]);
        let line = Line {
            name: format!("stream write, {}", sample.name),
            input: sample.input(),
            bar: WRITING_BAR,
            proved: Box::new(|| {
                sum(&inputs, |(triples, source)| {
                    proved::stream_writer::write(table, namespace, triples, source, &mut out)
                })
            }),
            reference: Box::new(|| {
                sum(&inputs, |(triples, source)| {
                    reference::stream_writer::write(table, namespace, triples, source, &mut other)
                })
            }),
        };
        measure(line, plan);
    }
}

/// The line of messages that are read into an index.
fn message_read(plan: &Plan, name: &str, messages: &[Vec<u8>]) {
    let bytes: usize = messages.iter().map(Vec::len).sum();
    let records = |message: reference::message::Message| message.extension().map_or(0, |e| e.counts.records);
    let (mut index, mut other) = (vec![0; 1 << 12], vec![0; 1 << 12]);
    let line = Line {
        name: name.to_string(),
        input: format!("{} messages, {bytes} bytes", messages.len()),
        bar: BAR,
        proved: Box::new(|| sum(messages, |message| proved::message::read(message, &mut index).map(records))),
        reference: Box::new(|| sum(messages, |message| reference::message::read(message, &mut other).map(records))),
    };
    measure(line, plan);
}

/// An init with networks and an address of any type.
fn init_with_address(random: &mut Random) -> Vec<u8> {
    let address = gen::descriptor(random).bytes();
    gen::init_with_address(random, &address)
}

fn message_reading(plan: &Plan) {
    let mut random = Random::new(2);
    // so many that no processor learns their order by heart, as it does with a thousand
    let messages: Vec<_> = (0..10_000).map(|_| gen::message(&mut random, Rules::Kept)).collect();
    message_read(plan, "message read", &messages);
    let inits: Vec<_> = (0..10_000).map(|_| init_with_address(&mut random)).collect();
    message_read(plan, "message, an init with an address", &inits);
    address_reading(plan, &inits);
}

/// The line of inits whose address is looked for and read.
fn address_reading(plan: &Plan, inits: &[Vec<u8>]) {
    let bytes: usize = inits.iter().map(Vec::len).sum();
    let told = |read: reference::address::Descriptor| usize::from(read.kind) << 8 ^ read.rest.length;
    let line = Line {
        name: "address of an init, read".to_string(),
        input: format!("{} inits, {bytes} bytes", inits.len()),
        bar: BAR,
        proved: Box::new(|| {
            sum(inits, |init| {
                let value = proved::message::address(init)?;
                proved::address::read(&init[value.start..value.end()]).map(told)
            })
        }),
        reference: Box::new(|| {
            sum(inits, |init| {
                let value = reference::message::address(init)?;
                reference::address::read(&init[value.start..value.end()]).map(told)
            })
        }),
    };
    measure(line, plan);
}

fn address_writing(plan: &Plan) {
    let mut random = Random::new(9);
    let descriptors: Vec<_> = (0..10_000).map(|_| gen::descriptor(&mut random)).collect();
    let bytes: usize = descriptors.iter().map(|case| 1 + case.rest.len()).sum();
    let (mut out, mut other) = ([0; 300], [0; 300]);
    let line = Line {
        name: "address, write".to_string(),
        input: format!("{} descriptors, {bytes} bytes", descriptors.len()),
        bar: BAR,
        proved: Box::new(|| sum(&descriptors, |case| proved::address::write(case.kind, &case.rest, &mut out))),
        reference: Box::new(|| sum(&descriptors, |case| reference::address::write(case.kind, &case.rest, &mut other))),
    };
    measure(line, plan);
}

/// So many streams of up to 160 bytes, with streams inside.
fn nested_streams(random: &mut Random, count: usize) -> Vec<Vec<u8>> {
    (0..count).map(|_| gen::stream(random, &gen::METERS, 0, 160, Rules::Kept)).collect()
}

/// Bytes without the last ones, one to eight of them.
fn without_tail(random: &mut Random, mut bytes: Vec<u8>) -> Vec<u8> {
    bytes.truncate(bytes.len().saturating_sub(1 + random.below(8)));
    bytes
}

/// A refusal told by what is missing, so that both sides have to agree on it; the whole answer is made.
fn missing<T>(answer: Result<T, reference::Refusal>) -> Result<usize, reference::Refusal> {
    Ok(black_box(answer).err().map_or(0, |refusal| refusal.missing as usize))
}

/// The line of inputs that have lost their tails, each asked of both sides.
fn cut_line(
    plan: &Plan,
    name: &str,
    inputs: &[Vec<u8>],
    proved: impl Fn(&[u8]) -> Result<usize, reference::Refusal>,
    plain: impl Fn(&[u8]) -> Result<usize, reference::Refusal>,
) {
    let bytes: usize = inputs.iter().map(Vec::len).sum();
    let line = Line {
        name: name.to_string(),
        input: format!("{bytes} bytes, inputs: {}", inputs.len()),
        bar: BAR,
        proved: Box::new(|| sum(inputs, |input| proved(input))),
        reference: Box::new(|| sum(inputs, |input| plain(input))),
    };
    measure(line, plan);
}

/// What a radio link has dropped the tail of.
fn cut_reading(plan: &Plan) {
    let mut random = Random::new(11);
    // The last of its records has a long value, of which half is there.
    let mut full = gen::records_of((0..15_000).map(|row| 2 * row + 1), &[]);
    full.extend([254, 0, 1, 0, 1, 253, 16, 0]);
    full.resize(full.len() + 2_048, 42);
    let stream_lines = [
        ("stream count, cut in its last value", vec![full]),
        ("stream count, nested streams cut short", nested_cuts(&mut random)),
    ];
    for (name, streams) in stream_lines {
        let ask = |stream: &[u8]| missing(proved::stream::count(&gen::METERS, 0, stream));
        cut_line(plan, name, &streams, ask, |stream| missing(reference::stream::count(&gen::METERS, 0, stream)));
    }

    let messages: Vec<_> = (0..10_000)
        .map(|_| {
            let init = init_with_address(&mut random);
            without_tail(&mut random, init)
        })
        .collect();
    let ask = |message: &[u8]| missing(proved::message::read(message, &mut [0; 16]));
    let plain = |message: &[u8]| missing(reference::message::read(message, &mut [0; 16]));
    cut_line(plan, "message, an init cut short", &messages, ask, plain);
}

/// Streams that lie in a record of another one, whole, and have lost their own tails before.
fn nested_cuts(random: &mut Random) -> Vec<Vec<u8>> {
    let streams = nested_streams(random, 200);
    streams.into_iter().map(|stream| gen::records_of([6], &without_tail(random, stream))).collect()
}

/// A valid invoice of so many characters.
fn invoice_of(characters: usize) -> Vec<u8> {
    let mut random = Random::new(4);
    loop {
        let text = gen::invoice_text(&mut random, Rules::Kept);
        if text.len() == characters && text[0] == b'l' {
            return text;
        }
    }
}

/// A valid invoice of 4,096 characters with a few long descriptions.
fn long_fields() -> Vec<u8> {
    let mut random = Random::new(5);
    let mut case = gen::invoice_case(&mut random, Rules::Kept);
    case.prefix = 1;
    case.amount = b"2500u".to_vec();
    let mut field = vec![0; 1_026];
    case.fields.clear();
    for (kind, bytes) in [(1, 32), (13, 639), (13, 639), (13, 639), (13, 520)] {
        let made = reference::field::from_bytes(kind, &random.bytes(bytes), &mut field).expect("it fits");
        case.fields.extend(&field[..made]);
    }
    let text = gen::text_of(&case);
    assert!((4_090..=4_096).contains(&text.len()), "{}", text.len());
    text
}

fn invoice_reading(plan: &Plan) {
    let invoices = [
        ("invoice read, 300 characters", invoice_of(300)),
        ("invoice read, 4,096 characters, many fields", gen::full_invoice()),
        ("invoice read, 4,096 characters, long fields", long_fields()),
    ];
    for (name, text) in invoices {
        let fields = reference::invoice::judge(&text).expect("a valid invoice").fields;
        let (mut groups, mut other_groups) = ([0; 4_096], [0; 4_096]);
        let (mut index, mut other_index) = ([0; 4_096], [0; 4_096]);
        let line = Line {
            name: name.to_string(),
            input: format!("{} characters, {fields} fields", text.len()),
            bar: BAR,
            proved: Box::new(|| {
                proved::invoice::read(black_box(&text), &mut groups, &mut index).map_or(0, |read| read.time)
            }),
            reference: Box::new(|| {
                reference::invoice::read(black_box(&text), &mut other_groups, &mut other_index)
                    .map_or(0, |read| read.time)
            }),
        };
        measure(line, plan);
    }
}

/// Invoices for 1p and up, of which every tenth is in whole millisatoshi.
fn amounts_in_tenths(plan: &Plan) {
    let mut case = gen::invoice_case(&mut Random::new(6), Rules::Kept);
    case.prefix = 1;
    let invoices: Vec<_> = (1..=2_000)
        .map(|tenths| {
            case.amount = format!("{tenths}p").into_bytes();
            gen::text_of(&case)
        })
        .collect();
    let characters: usize = invoices.iter().map(Vec::len).sum();
    let asked = |read: reference::invoice::Invoice| read.msat.map_or(0, |msat| msat.0 as usize);
    let (mut groups, mut other_groups) = ([0; 4_096], [0; 4_096]);
    let (mut index, mut other_index) = ([0; 4_096], [0; 4_096]);
    let line = Line {
        name: "invoice read, amounts in tenths".to_string(),
        input: format!("{} invoices, {characters} characters", invoices.len()),
        bar: BAR,
        proved: Box::new(|| sum(&invoices, |text| proved::invoice::read(text, &mut groups, &mut index).map(asked))),
        reference: Box::new(|| {
            sum(&invoices, |text| reference::invoice::read(text, &mut other_groups, &mut other_index).map(asked))
        }),
    };
    measure(line, plan);
}

/// The rules that an invoice breaks as a number, or the refusal's.
fn profile_told(answer: Result<reference::till::Profile, reference::Refusal>) -> Result<usize, reference::Refusal> {
    let told = |profile: reference::till::Profile| {
        profile.rules.iter().fold(profile.count, |told, &rule| told << 3 | usize::from(rule))
    };
    Ok(answer.map_or_else(|refusal| usize::from(refusal.number) << 24, told))
}

/// The line of invoices that are held to the till's rules by both sides, and one of the proved side's profile against its
/// own reader, which is not to take half as long again.
fn till_lines(plan: &Plan, name: &str, invoices: &[Vec<u8>]) {
    let characters: usize = invoices.iter().map(Vec::len).sum();
    let input = match invoices.len() {
        1 => format!("{characters} characters"),
        count => format!("{count} invoices, {characters} characters"),
    };
    let line = Line {
        name: name.to_string(),
        input: input.clone(),
        bar: BAR,
        proved: Box::new(|| sum(invoices, |text| profile_told(proved::till::profile(text)))),
        reference: Box::new(|| sum(invoices, |text| profile_told(reference::till::profile(text)))),
    };
    measure(line, plan);
    let (mut groups, mut index) = ([0; 4_096], [0; 4_096]);
    let line = Line {
        name: format!("{name}, against the proved reader"),
        input,
        bar: PROFILE_BAR,
        proved: Box::new(|| sum(invoices, |text| proved::till::profile(text).map(|_| 1))),
        reference: Box::new(|| sum(invoices, |text| proved::invoice::read(text, &mut groups, &mut index).map(|_| 1))),
    };
    measure(line, plan);
}

/// What a till wrote: one invoice that keeps all rules, many that break any of them, one of many fields, and one with a
/// character mistyped.
fn till_profiles(plan: &Plan) {
    let mut random = Random::new(13);
    let clean = gen::text_of(&gen::till_case(&mut random, 0));
    let any: Vec<_> = (0..2_000).map(|set| gen::till_invoice(&mut random, (set % 64) as u8)).collect();
    let mut mistyped = clean.clone();
    let last = mistyped.len() - 1;
    mistyped[last] = if mistyped[last] == b'q' { b'p' } else { b'q' };
    till_lines(plan, "till, a clean invoice", &[clean]);
    till_lines(plan, "till, invoices that break any rules", &any);
    till_lines(plan, "till, an invoice of many fields", &[gen::full_invoice()]);
    till_lines(plan, "till, a refused invoice", &[mistyped]);
}

/// A book of inits, each with networks and an address.
fn inits_with_addresses() -> Vec<u8> {
    let mut random = Random::new(10);
    let messages = (0..400).map(|_| init_with_address(&mut random)).collect();
    gen::BookCase { messages, ..gen::BookCase::default() }.bytes()
}

/// A book of streams that have lost bytes at their ends.
fn book_of_cuts() -> Vec<u8> {
    let mut random = Random::new(12);
    let streams = nested_streams(&mut random, 400).into_iter().map(|stream| (0, without_tail(&mut random, stream)));
    gen::BookCase { table: gen::METERS.to_vec(), streams: streams.collect(), ..gen::BookCase::default() }.bytes()
}

fn book_reporting(plan: &Plan) {
    let books = [
        ("report, full book", gen::full_book()),
        ("report, book of most entries", gen::most_entries()),
        ("report, inits with addresses", inits_with_addresses()),
        ("report, streams cut short", book_of_cuts()),
    ];
    for (name, book) in books {
        let (mut out, mut other) = (vec![0; REPORT_MOST], vec![0; REPORT_MOST]);
        let line = Line {
            name: name.to_string(),
            input: format!("{} bytes", book.len()),
            bar: BAR,
            proved: Box::new(|| proved::book::report(black_box(&book), &mut out).map_or(0, |length| length as u64)),
            reference: Box::new(|| {
                reference::book::report(black_box(&book), &mut other).map_or(0, |length| length as u64)
            }),
        };
        measure(line, plan);
    }
}

/// How many namespaces the books of a month have.
const NAMESPACES: u64 = 4;

/// The types of a namespace in the books of a month: ten that their tables know, and 65 that are passed over.
fn month_kinds() -> impl Iterator<Item = u64> {
    (0..130).filter(|kind| kind % 2 == 1 || *kind < 20)
}

/// A book of so many streams, each of one in so many of its namespace's types with a value of one byte, and of so many
/// invoices.
fn month_book(random: &mut Random, streams: u64, share: usize, invoices: usize) -> Vec<u8> {
    let mut book = gen::BookCase::default();
    for namespace in 0..NAMESPACES {
        let known = month_kinds().filter(|kind| kind % 2 == 0);
        book.table.extend(known.flat_map(|kind| [namespace, kind, 0, 0]));
    }
    for stream in 0..streams {
        let kinds = month_kinds().filter(|_| random.once_in(share));
        let records = kinds.flat_map(|kind| [kind as u8, 1, 42]).collect();
        book.streams.push(((stream % NAMESPACES) as u8, records));
    }
    book.invoices.extend((0..invoices).map(|_| gen::invoice_text(random, Rules::Kept)));
    book.bytes()
}

/// A book of one night: a namespace of 240 rows, streams of some of its types, and of a few that it does not know, and
/// invoices.
fn nightly_book(random: &mut Random) -> Vec<u8> {
    let mut book = gen::BookCase { table: gen::spaced_rows(5, 240, 2), ..gen::BookCase::default() };
    for _ in 0..20 {
        let kinds: Vec<_> = (0..480).filter(|kind| random.once_in(if kind % 2 == 0 { 20 } else { 80 })).collect();
        book.streams.push((5, gen::records_of(kinds, &[42; 4])));
    }
    book.invoices.extend((0..3).map(|_| gen::invoice_text(random, Rules::Kept)));
    book.bytes()
}

/// How the plain side adds a book.
type Adder = fn(reference::month::Figures, &[u8]) -> (reference::month::Figures, Result<(), reference::Refusal>);

/// The line of books that are added to empty figures one after the other.
fn month_run(plan: &Plan, name: &str, books: &[Vec<u8>], add: Adder) {
    let bytes: usize = books.iter().map(Vec::len).sum();
    let after = books.iter().fold(reference::month::empty(), |figures, book| reference::month::add(figures, book).0);
    let records: u64 = after.rows.iter().map(|row| row.known + row.passed_over).sum();
    let line = Line {
        name: name.to_string(),
        input: format!("{bytes} bytes, {} pairs, {records} records, {} invoices", after.pairs, after.invoices),
        bar: BAR,
        proved: Box::new(|| {
            let mut figures = proved::month::empty();
            for book in books {
                figures = proved::month::add(figures, black_box(book)).0;
            }
            figures.millisatoshi() as u64 ^ black_box(&figures).rows().map(|row| row.frame_bytes).sum::<u64>()
        }),
        reference: Box::new(|| {
            let mut figures = reference::month::empty();
            for book in books {
                figures = add(figures, black_box(book)).0;
            }
            let rows = &black_box(&figures).rows[..figures.pairs];
            figures.msat as u64 ^ rows.iter().map(|row| row.frame_bytes).sum::<u64>()
        }),
    };
    measure(line, plan);
}

fn month_end(plan: &Plan) {
    let mut random = Random::new(7);
    let add = reference::month::add;
    month_run(plan, "month add, full book of small records", &[month_book(&mut random, 280, 1, 0)], add);
    month_run(plan, "month add, book of invoices", &[month_book(&mut random, 0, 1, 130)], add);
    let books: Vec<_> = (0..1_000).map(|_| month_book(&mut random, 20, 3, 3)).collect();
    month_run(plan, "month, 1000 books", &books, add);
    // Thirty nights of nineteen posts and the laundry.
    let books: Vec<_> = (0..600).map(|_| nightly_book(&mut random)).collect();
    month_run(plan, "month, 600 books of 240 rows", &books, add);
    month_run(plan, "month, 600 books of 240 rows, against walking", &books, reference::month::add_walking);
}

/// The line of a stream that is mended.
fn mend(plan: &Plan, name: &str, stream: &[u8]) {
    let (mut out, mut other) = (vec![0; stream.len()], vec![0; stream.len()]);
    let told = |mended: reference::mender::Mended| {
        let reference::mender::Changes { moved, dropped, respelled, cut } = mended.changes;
        [moved, dropped, respelled, cut].iter().fold(mended.length as u64, |told, &count| told << 12 ^ count as u64)
    };
    let changes = reference::mender::mend(stream, &mut other).expect("one value of each type").changes;
    let line = Line {
        name: format!("mend, {name}"),
        input: format!("{} bytes, {} moved, {} dropped", stream.len(), changes.moved, changes.dropped),
        bar: BAR,
        proved: Box::new(|| proved::mender::mend(black_box(stream), &mut out).map_or(u64::MAX, told)),
        reference: Box::new(|| reference::mender::mend(black_box(stream), &mut other).map_or(u64::MAX, told)),
    };
    measure(line, plan);
}

fn mending(plan: &Plan) {
    let mut random = Random::new(8);
    mend(plan, "a right stream", &gen::records_of(0.., &[]));
    mend(plan, "a reversed stream", &gen::records_of((0..16_510).rev(), &[]));
    let kinds: Vec<_> = (0..32_767).map(|_| random.below(253) as u64).collect();
    mend(plan, "random types with copies", &gen::records_of(kinds, &[]));
    let kinds: Vec<_> = (0..32_767).map(|_| random.below(65_536) as u64).collect();
    mend(plan, "random types of two bytes", &gen::records_of(kinds, &[]));
    mend(plan, "ten records", &gen::records_of([1, 3, 2, 7, 7, 9, 4, 11, 300, 5], &[42; 8]));
}

fn main() {
    let mut arguments = std::env::args().skip(1);
    let seconds = arguments.next().and_then(|seconds| seconds.parse().ok()).unwrap_or(3.0);
    let plan = Plan { seconds, wanted: arguments.next().unwrap_or_default() };
    println!("| question | input | proved, us | plain Rust, us | ratio | bar |");
    println!("|---|---|---:|---:|---:|---:|");
    stream_reading(&plan);
    stream_writing(&plan);
    message_reading(&plan);
    address_writing(&plan);
    cut_reading(&plan);
    invoice_reading(&plan);
    amounts_in_tenths(&plan);
    till_profiles(&plan);
    book_reporting(&plan);
    month_end(&plan);
    mending(&plan);
}

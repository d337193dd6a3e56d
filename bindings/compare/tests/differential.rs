//! Every question of documents 01 and 02 asked of both sides: `cargo test --release`, with a part of a name for some of them.

use std::thread;
use std::time::Instant;

use tockplover_compare::questions::{Question, PROFILES};
use tockplover_compare::{check, inputs, Run};
use tockplover_reference::gen::Random;

/// The refusals of a table, of a stream judged by it and of a stream read.
const TABLE: &[u8] = &[60, 61, 62, 63];
const COUNT: &[u8] = &[1, 2, 3, 4, 5, 6, 7, 8, 9, 10, 11, 14, 60, 61, 62, 63];
const READ: &[u8] = &[1, 2, 3, 4, 5, 6, 7, 8, 9, 10, 11, 12, 14, 60, 61, 62, 63];
const ASKED: &[u8] = &[1, 2, 3, 4, 5, 6, 7, 8, 9, 10, 11, 14, 15, 60, 61, 62, 63];
const WRITE: &[u8] = &[1, 2, 3, 4, 5, 6, 7, 8, 9, 10, 11, 12, 14, 16, 60, 61, 62, 63];

const ACCEPTED: &[&str] = &["accepted"];
const WIDTHS: &[&str] = &["width 1", "width 3", "width 5", "width 9"];
const DESCRIPTORS: &[&str] = &["IPv4", "IPv6", "Tor v2", "Tor v3", "DNS name", "unknown type"];
const MESSAGES: &[&str] = &["init", "error", "warning", "ping", "pong", "passed over"];
const GROUPS: &[&str] = &["group 0", "group 1", "group 2", "group 3", "group 4", "group 5"];
const INVOICES: &[&str] = &["with amount", "without amount"];
/// Without the first word at most two rules are broken.
const FEW_RULES: &[&str] = PROFILES.split_at(1).1;
const REPORTS: &[&str] = &[
    "book refused 60",
    "book refused 61",
    "book refused 62",
    "book refused 63",
    "book refused 70",
    "book refused 71",
    "book refused 72",
    "rows",
];
/// Few changed bytes do not make over 256 rows of a full book.
const FULL_REPORTS: &[&str] = REPORTS.split_at(1).1;

/// So many threads share the runs.
const SHARES: u64 = 2;

/// What a thread has for its calls: more than a program's first thread.
const STACK: usize = 16 << 20;

/// The runs that are asked for of a thread's share, one after the other.
struct Runs {
    wanted: Vec<String>,
    share: u64,
    seed: u64,
    cases: u64,
    failed: Vec<&'static str>,
}

impl Runs {
    /// A run with inputs from a generator.
    fn ask<Q: Question>(
        &mut self,
        name: &'static str,
        cases: u64,
        make: impl Fn(&mut Random) -> Q,
        words: &'static [&'static str],
        numbers: &'static [u8],
    ) {
        self.ask_each(name, cases, |_, random| make(random), words, numbers);
    }

    /// A run whose inputs go by the case's number too.
    fn ask_each<Q: Question>(
        &mut self,
        name: &'static str,
        cases: u64,
        make: impl Fn(u64, &mut Random) -> Q,
        words: &'static [&'static str],
        numbers: &'static [u8],
    ) {
        self.seed += 1;
        if self.seed % SHARES != self.share {
            return;
        }
        if !self.wanted.is_empty() && !self.wanted.iter().any(|wanted| name.contains(wanted)) {
            return;
        }
        self.cases += cases;
        if !check(&Run { name, seed: self.seed, cases, words, numbers }, make) {
            self.failed.push(name);
        }
    }
}

fn numbers_and_tables(runs: &mut Runs) {
    runs.ask("bigsize read", 40_000, inputs::bigsize_read, WIDTHS, &[1, 2, 13]);
    let short = 1 + 256 + 2 * 65_536;
    let narrow = &["width 1", "width 3"];
    runs.ask_each("bigsize read, all short", short, |case, _| inputs::short_bigsize(case), narrow, &[1, 2, 13]);
    runs.ask("bigsize write", 40_000, inputs::bigsize_write, ACCEPTED, &[12]);
    runs.ask("table check", 20_000, inputs::table_check, ACCEPTED, TABLE);
    runs.ask("table extends", 20_000, inputs::table_extends, &["extends", "lacks"], TABLE);
    runs.ask("money to_sat", 40_000, inputs::to_sat, ACCEPTED, &[43]);
}

fn streams(runs: &mut Runs) {
    runs.ask("stream count", 50_000, inputs::stream_count, ACCEPTED, COUNT);
    runs.ask("stream read", 80_000, inputs::stream_read, ACCEPTED, READ);
    // The room is for three records, which five bytes never pass.
    let numbers = &[1, 2, 3, 4, 5, 6, 7, 8, 9];
    runs.ask_each("stream read, all short", 111_111, |case, _| inputs::short_stream(case), ACCEPTED, numbers);
    runs.ask("stream read, full", 600, inputs::long_stream, ACCEPTED, &[1, 2, 3, 4, 6, 7, 12, 14]);
    runs.ask("stream contains", 40_000, inputs::stream_contains, ACCEPTED, ASKED);
    runs.ask("stream value", 40_000, inputs::stream_value, ACCEPTED, ASKED);
    runs.ask("stream write", 80_000, inputs::stream_write, ACCEPTED, WRITE);
    runs.ask("stream write, full", 600, inputs::long_triples, ACCEPTED, &[3, 7, 12, 14, 16]);
}

fn messages(runs: &mut Runs) {
    let read = &[1, 2, 3, 4, 5, 6, 7, 8, 12, 20, 21, 22];
    runs.ask("message read", 80_000, inputs::message_read, MESSAGES, read);
    runs.ask("message write", 40_000, inputs::message_write, ACCEPTED, &[3, 7, 8, 12, 16, 20, 21, 22]);
    runs.ask_each("message group", 80_000, inputs::message_group, GROUPS, &[]);
    runs.ask("message join_features", 20_000, inputs::join_features, ACCEPTED, &[12]);
    runs.ask("message pong", 10_000, inputs::pong, &["pong", "no pong"], &[12]);
}

fn invoices(runs: &mut Runs) {
    let read = &[12, 30, 31, 32, 33, 34, 35, 36, 37, 38, 39, 40];
    runs.ask("invoice read", 80_000, inputs::invoice_read, INVOICES, read);
    runs.ask("invoice read, prices", 40_000, inputs::priced_invoice, INVOICES, &[12, 33, 36, 37]);
    let full = &[12, 30, 31, 32, 33, 34, 35, 38, 40];
    runs.ask("invoice read, full", 4_000, inputs::long_invoice, &["with amount"], full);
    let write = &[12, 30, 34, 36, 37, 38, 39, 40, 42];
    runs.ask("invoice write", 60_000, inputs::invoice_write, ACCEPTED, write);
    runs.ask("invoice field_bytes", 20_000, inputs::field_bytes, ACCEPTED, &[12, 16, 34]);
    runs.ask("invoice field_number", 20_000, inputs::field_number, ACCEPTED, &[16, 34, 38]);
    runs.ask("invoice route_size", 20_000, inputs::route_size, ACCEPTED, &[16, 34]);
    runs.ask("invoice route_entry", 80_000, inputs::route_entry, &["entry", "no entry"], &[12, 16, 34]);
    runs.ask("invoice field_from_bytes", 20_000, inputs::field_from_bytes, ACCEPTED, &[12, 34, 38]);
    runs.ask("invoice field_from_number", 20_000, inputs::field_from_number, ACCEPTED, &[12, 34, 38]);
    runs.ask_each("invoice read, tenths", 20_000, inputs::tenths_read, &["with amount"], &[12, 37]);
    runs.ask_each("invoice write, tenths", 20_000, inputs::tenths_write, ACCEPTED, &[12, 37]);
}

fn books(runs: &mut Runs) {
    runs.ask("book report", 20_000, inputs::book_report, REPORTS, &[12]);
    runs.ask("book report, full", 600, inputs::long_book, FULL_REPORTS, &[12]);
}

fn months(runs: &mut Runs) {
    let given = &["accepted", "no book"];
    let all = &[60, 61, 62, 63, 70, 71, 72];
    runs.ask("month run", 6_000, inputs::month_run, given, all);
    runs.ask("month run, many pairs", 600, inputs::many_pairs, ACCEPTED, &[73]);
    runs.ask_each("month run, many books", 24, inputs::many_books, ACCEPTED, &[73, 76]);
    runs.ask("month run, high sums", 600, inputs::high_sums, ACCEPTED, &[]);
    let all = &[60, 61, 62, 63, 70, 71, 72, 73, 76];
    runs.ask("month add, any figures", 20_000, inputs::month_add, ACCEPTED, all);
    runs.ask("month satoshi", 40_000, inputs::month_satoshi, &["whole", "not whole"], &[]);
    runs.ask("month decimal", 40_000, inputs::month_decimal, ACCEPTED, &[12]);
}

fn menders(runs: &mut Runs) {
    let words = &["mended", "right"];
    runs.ask("mend", 30_000, inputs::mend, words, &[12, 80]);
    runs.ask_each("mend, all short", 97_656, |case, _| inputs::short_mend(case), words, &[80]);
    runs.ask("mend, counts", 1_000, inputs::counted_mend, &["mended"], &[12, 80]);
    runs.ask("mend, full", 120, inputs::long_mend, words, &[12, 14, 80]);
}

fn searches(runs: &mut Runs) {
    runs.ask("stream read, few of many rows", 40_000, inputs::few_of_many_rows, ACCEPTED, &[7, 12]);
    runs.ask("stream contains, few of many rows", 20_000, inputs::asked_of_many_rows, ACCEPTED, &[7, 15]);
    runs.ask("stream write, few of many rows", 20_000, inputs::triples_of_many_rows, ACCEPTED, &[3, 7, 12]);
    runs.ask("table extends, many rows", 20_000, inputs::extends_many_rows, &["extends", "lacks"], &[62, 63]);
    runs.ask("book report, many rows", 4_000, inputs::report_of_many_rows, &["rows"], &[12]);
    runs.ask("month run, many rows", 4_000, inputs::month_of_many_rows, ACCEPTED, &[]);
}

fn addresses(runs: &mut Runs) {
    runs.ask("address read", 40_000, inputs::address_read, DESCRIPTORS, &[8]);
    let sized = 256 * (64 + 7);
    runs.ask_each("address read, all lengths", sized, |case, _| inputs::sized_address(case), DESCRIPTORS, &[8]);
    runs.ask("address write", 40_000, inputs::address_write, ACCEPTED, &[8, 12]);
    let numbers = &[1, 2, 3, 4, 5, 6, 7, 8, 15, 20, 21, 22];
    runs.ask("message address", 40_000, inputs::message_address, ACCEPTED, numbers);
    runs.ask("message write, addresses", 20_000, inputs::init_write, ACCEPTED, &[8, 12, 21]);
    runs.ask("book report, addresses", 4_000, inputs::report_of_addresses, &["rows"], &[12]);
}

fn cuts(runs: &mut Runs) {
    runs.ask_each("bigsize read, cut", 20_000, inputs::cut_bigsize, &[], &[1, 13]);
    runs.ask_each("stream read, cut at every length", 30_000, inputs::cut_stream, ACCEPTED, &[1, 4, 6, 12]);
    // What is nested itself may nest too deep.
    runs.ask_each("stream count, nested cuts", 30_000, inputs::nested_cut, ACCEPTED, &[1, 4, 6, 11]);
    runs.ask("stream count, any announced length", 20_000, inputs::announced, &[], &[6]);
    runs.ask_each("stream contains, cut at every length", 10_000, inputs::contained_in_cut, ACCEPTED, &[1, 4, 6, 15]);
    runs.ask_each("stream value, cut at every length", 10_000, inputs::value_in_cut, ACCEPTED, &[1, 4, 6, 15]);
    runs.ask_each("stream write, nested cuts", 20_000, inputs::written_cut, ACCEPTED, &[1, 4, 6, 11, 12]);
    let words = &["init", "error", "warning", "ping", "pong"];
    runs.ask_each("message read, cut at every length", 20_000, inputs::cut_message, words, &[1, 4, 6, 20]);
    runs.ask_each("message address, cut at every length", 10_000, inputs::address_in_cut, ACCEPTED, &[4, 6, 15, 20]);
    runs.ask("book report, cut", 4_000, inputs::report_of_cuts, &["rows"], &[12]);
}

fn tills(runs: &mut Runs) {
    let all = &[30, 31, 32, 33, 34, 35, 36, 37, 38, 39, 40];
    runs.ask("till profile", 60_000, inputs::till_profile, PROFILES, all);
    runs.ask_each("till profile, each rule and all pairs", 44_000, inputs::at_most_two_rules, FEW_RULES, &[]);
    runs.ask_each("till profile, all sets of rules", 40_000, inputs::any_rules, PROFILES, &[]);
    runs.ask_each("till profile, refused", 20_000, inputs::refused_till, &[], all);
    let one_field = &["clean", "breaks 1", "breaks 1 4", "breaks 2", "breaks 4", "breaks 5"];
    runs.ask_each("till profile, all short fields", inputs::TILL_FIELDS, inputs::till_field, one_field, &[]);
    runs.ask_each("till profile, amounts", inputs::TILL_AMOUNTS, inputs::till_amount, &["clean", "breaks 6"], &[37]);
    let (rules, numbers) = (&["breaks 2 6", "breaks more"], &[30, 31, 32, 33, 34, 35, 38, 40]);
    runs.ask("till profile, full", 4_000, inputs::long_till, rules, numbers);
}

/// A thread's share of all runs.
fn share_of(wanted: Vec<String>, share: u64) -> Runs {
    let mut runs = Runs { wanted, share, seed: 0, cases: 0, failed: Vec::new() };
    numbers_and_tables(&mut runs);
    streams(&mut runs);
    messages(&mut runs);
    invoices(&mut runs);
    books(&mut runs);
    months(&mut runs);
    menders(&mut runs);
    searches(&mut runs);
    addresses(&mut runs);
    cuts(&mut runs);
    tills(&mut runs);
    runs
}

fn main() {
    let start = Instant::now();
    let wanted: Vec<String> = std::env::args().skip(1).filter(|argument| !argument.starts_with('-')).collect();
    let threads: Vec<_> = (0..SHARES)
        .map(|share| {
            let wanted = wanted.clone();
            thread::Builder::new().stack_size(STACK).spawn(move || share_of(wanted, share)).expect("a thread")
        })
        .collect();
    let shares: Vec<Runs> = threads.into_iter().map(|thread| thread.join().expect("a share of the runs")).collect();
    let cases: u64 = shares.iter().map(|runs| runs.cases).sum();
    let failed: Vec<_> = shares.iter().flat_map(|runs| runs.failed.iter()).collect();
    println!("{cases} cases in {:.0} s; failed: {failed:?}", start.elapsed().as_secs_f64());
    if !failed.is_empty() {
        std::process::exit(1);
    }
}

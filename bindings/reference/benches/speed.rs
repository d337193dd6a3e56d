//! Times of the main questions on full inputs: `cargo bench`.

use std::hint::black_box;
use std::time::{Duration, Instant};

use tockplover_reference::gen::{self, Random, Rules};
use tockplover_reference::{bigsize, book, invoice, invoice_writer, message, stream, stream_writer, table};

/// Prints the least time of a run over many; the others were disturbed.
fn time<T>(name: &str, bytes: usize, mut run: impl FnMut() -> T) {
    let mut least = Duration::MAX;
    let start = Instant::now();
    while start.elapsed() < Duration::from_millis(400) {
        let once = Instant::now();
        black_box(run());
        least = least.min(once.elapsed());
    }
    let micros = least.as_secs_f64() * 1e6;
    let rate = bytes as f64 / micros;
    println!("{name:<62}{micros:>10.2} us {rate:>8.0} MB/s");
}

fn main() {
    let mut out = vec![0; 1 << 21];
    let mut index = vec![0; 1 << 16];
    // The rows' types close together at the front of the stream, and spread over all of it.
    for step in [2, 100] {
        let table = gen::spaced_rows(5, 240, step);
        let stream = gen::full_stream(240, step);
        let length = stream.len();
        let records = stream::count(&table, 5, &stream).map_or(0, |counts| counts.records);
        println!("stream of {length} bytes, {records} records; table of 240 rows, types {step} apart");
        let triples = gen::triples_of(&table, 5, &stream);
        let (table, stream) = (black_box(&table[..]), black_box(&stream[..]));
        time("table check", 8 * table.len(), || table::check(table));
        time("stream count", length, || stream::count(table, 5, stream));
        time("stream count, walking the rows", length, || stream::count_walking(table, 5, stream));
        time("stream read into an index", length, || stream::read(table, 5, stream, &mut index));
        time("stream asked for a type", length, || stream::locate(table, 5, stream, u64::MAX));
        time("stream write", length, || stream_writer::write(table, 5, &triples, stream, &mut out));
    }

    let mut random = Random::new(1);
    let nested: Vec<_> = (0..200).map(|_| gen::stream(&mut random, &gen::METERS, 0, 2_000, Rules::Kept)).collect();
    let length = nested.iter().map(Vec::len).sum();
    time("200 nested streams, counted", length, || {
        nested.iter().filter(|stream| stream::count(&gen::METERS, 0, black_box(stream)).is_ok()).count()
    });

    let numbers: Vec<u64> = (0..10_000).map(|_| random.wide_number()).collect();
    let mut buffer = [0; 9];
    time("10,000 BigSizes written and read", 0, || {
        let read = |&number: &u64| {
            bigsize::write(black_box(number), &mut buffer).ok()?;
            bigsize::read(black_box(&buffer)).ok()
        };
        numbers.iter().filter_map(read).map(|read| read.width).sum::<usize>()
    });

    let messages: Vec<_> = (0..1_000).map(|_| gen::message(&mut random, Rules::Kept)).collect();
    let length = messages.iter().map(Vec::len).sum();
    time("1,000 messages read", length, || {
        messages.iter().filter(|message| message::read(black_box(message), &mut index).is_ok()).count()
    });

    let text = gen::full_invoice();
    let (mut groups, mut rows) = ([0; 4_096], [0; 4_096]);
    time("invoice of 4,096 characters read", text.len(), || invoice::read(black_box(&text), &mut groups, &mut rows));
    let answer = invoice::read(&text, &mut groups, &mut rows).expect("a valid invoice");
    let (front, signature) = groups[..answer.groups].split_at(answer.groups - 104);
    let amount = &text[answer.amount.start..answer.amount.end()];
    time("invoice of 4,096 characters written", text.len(), || {
        invoice_writer::write(1, amount, answer.time, black_box(&front[7..]), black_box(signature), &mut out)
    });

    for (name, book) in [("full book of 240 rows", gen::full_book()), ("book of 32,763 entries", gen::most_entries())] {
        time(&format!("report on a {name}"), book.len(), || book::report(black_box(&book), &mut out));
        let length = book::report(&book, &mut out).unwrap_or(0);
        time("the same, measured first", book.len(), || book::report(black_box(&book), &mut out[..length]));
    }
}

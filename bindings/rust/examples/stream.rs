//! Reads record streams, given as hexadecimal digits, by BOLT 1's test namespace n1, and shows their records or why one is refused:
//!
//!     cargo run --example stream 0100fd00fe022602
use std::env;

/// Namespace 0: an integer of at most 8 bytes, exactly 8 bytes, a point and 16 bytes, exactly 2 bytes.
const TABLE: [u64; 16] = [0, 1, 2, 8, 0, 2, 1, 8, 0, 3, 4, 16, 0, 254, 1, 2];

/// What is read where nothing is given: two known records; a known one and one that is passed over; an even type that the table does not
/// know; a stream whose tail is lost.
const GIVEN: [&str; 4] = ["0100fd00fe022602", "0102260205012a", "01001200", "01022602fd00fe02"];

fn main() {
    let given: Vec<String> = env::args().skip(1).collect();
    let streams = if given.is_empty() {
        GIVEN.map(String::from).to_vec()
    } else {
        given
    };
    for digits in streams {
        match bytes(&digits) {
            Some(stream) => show(&digits, &stream),
            None => println!("{digits}: not hexadecimal digits, two to a byte"),
        }
    }
}

/// The bytes that the digits spell.
fn bytes(digits: &str) -> Option<Vec<u8>> {
    let halves: Vec<u32> = digits.chars().map(|digit| digit.to_digit(16)).collect::<Option<_>>()?;
    let whole = halves.len() % 2 == 0;
    whole.then(|| halves.chunks(2).map(|pair| (pair[0] << 4 | pair[1]) as u8).collect())
}

/// Prints each record of a stream, or its refusal and what to do about it.
fn show(digits: &str, stream: &[u8]) {
    // twice as many numbers as there are bytes always suffice
    let mut index = vec![0; 2 * stream.len()];
    match tockplover::stream::read(&TABLE, 0, stream, &mut index) {
        Ok(reading) => {
            println!("{digits}: {} records", reading.counts().records);
            for record in reading.records() {
                let mark = if record.known { "known" } else { "passed over" };
                println!("  type {}, {mark}, value {:02x?}", record.kind, record.value);
            }
        }
        Err(refusal) => {
            println!("{digits}: {refusal}\n  {}", refusal.advice());
            if let Some(lack) = refusal.lack() {
                println!("  {lack}");
            }
        }
    }
}

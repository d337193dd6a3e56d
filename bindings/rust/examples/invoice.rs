//! Reads an invoice and shows its amount, its description and its routes, or why it is refused:
//!
//!     cargo run --example invoice lnbc2500u1pvjluez...
use std::env;

use tockplover::invoice::{self, field_type, Field, Invoice};
use tockplover::{money, Refusal};

/// What is read where nothing is given: BOLT 11's cup of coffee, its list of things with a route, and the coffee mistyped at its end.
const GIVEN: [&str; 3] = [
    "lnbc2500u1pvjluezpp5qqqsyqcyq5rqwzqfqqqsyqcyq5rqwzqfqqqsyqcyq5rqwzqfqypqdq5xysxxatsyp3k7enxv4jsxqzpuaztrnwngzn3kdzw5hydlzf03q\
     dgm2hdq27cqv3agm2awhz5se903vruatfhq77w3ls4evs3ch9zw97j25emudupq63nyw24cg27h2rspfj9srp",
    "lnbc20m1pvjluezpp5qqqsyqcyq5rqwzqfqqqsyqcyq5rqwzqfqqqsyqcyq5rqwzqfqypqhp58yjmdan79s6qqdhdzgynm4zwqd5d7xmw5fk98klysy043l2ahrqs\
     fpp3qjmp7lwpagxun9pygexvgpjdc4jdj85fr9yq20q82gphp2nflc7jtzrcazrra7wwgzxqc8u7754cdlpfrmccae92qgzqvzq2ps8pqqqqqqqqqqqq9qqqvpeuqa\
     fqxu92d8lr6fvg0r5gv0heeeqgcrqlnm6jhphu9y00rrhy4grqszsvpcgpy9qqqqqqqqqqqq7qqzqfnlkwydm8rg30gjku7wmxmk06sevjp53fmvrcfegvwy7d5443\
     jvyhxsel0hulkstws7vqv400q4j3wgpk4crg49682hr4scqvmad43cqd5m7tf",
    "lnbc2500u1pvjluezpp5qqqsyqcyq5rqwzqfqqqsyqcyq5rqwzqfqqqsyqcyq5rqwzqfqypqdq5xysxxatsyp3k7enxv4jsxqzpuaztrnwngzn3kdzw5hydlzf03q\
     dgm2hdq27cqv3agm2awhz5se903vruatfhq77w3ls4evs3ch9zw97j25emudupq63nyw24cg27h2rspfj9srq",
];

fn main() {
    let given: Vec<String> = env::args().skip(1).collect();
    let texts = if given.is_empty() {
        GIVEN.map(String::from).to_vec()
    } else {
        given
    };
    for text in texts {
        if let Err(refusal) = show(text.as_bytes()) {
            println!("{refusal}\n  {}", refusal.advice());
        }
    }
}

/// Prints what an invoice says.
fn show(text: &[u8]) -> Result<(), Refusal> {
    // as many groups and numbers as the text has characters always suffice
    let (mut groups, mut index) = (vec![0; text.len()], vec![0; text.len()]);
    let read = invoice::read(text, &mut groups, &mut index)?;
    match read.msat {
        Some(msat) => println!("{} millisatoshi, {}", msat.0, satoshi(msat)),
        None => println!("no amount"),
    }
    println!("  for {} seconds from {}", read.expiry, read.time);
    for field in read.fields() {
        show_field(&read, field)?;
    }
    Ok(())
}

/// An amount in satoshi, which may have no whole number.
fn satoshi(msat: money::Msat) -> String {
    match money::to_sat(msat) {
        Ok(sat) => format!("{} satoshi", sat.0),
        Err(_) => "no whole number of satoshis".to_string(),
    }
}

/// Prints a description or a route; other fields are passed over.
fn show_field(read: &Invoice, field: Field) -> Result<(), Refusal> {
    if field.is(field_type::DESCRIPTION) {
        let mut out = [0; invoice::FIELD_MOST];
        // somebody else wrote it: Debug shows what a terminal might obey
        println!(
            "  description {:?}",
            String::from_utf8_lossy(invoice::field_bytes(read.groups(), field, &mut out)?)
        );
    } else if field.is(field_type::ROUTE) {
        for k in 0..invoice::route_size(read.groups(), field)? {
            if let Some(hop) = invoice::route_entry(read.groups(), field, k)? {
                let key: String = hop.key.iter().map(|byte| format!("{byte:02x}")).collect();
                println!(
                    "  hop {k}: channel {:016x}, fee {}, delta {}, key {key}",
                    hop.channel, hop.fee, hop.delta
                );
            }
        }
    }
    Ok(())
}

//! Single items, for people: an invoice, a record stream or a message in words or as JSON, invoices judged by the till profile, and two tables
//! compared. `tockplover invoice`, `till`, `stream`, `message` and `tables` run this program with the same words behind the command's name.
#![forbid(unsafe_code)]

mod address;
mod answer;
mod call;
mod date;
mod fault;
mod field;
mod form;
mod hex;
mod input;
mod invoice;
mod json;
mod message;
mod output;
mod pasted;
mod record;
mod refused;
mod shown;
mod stream;
mod table;
mod tables;
mod till;
mod window;

use std::env;
use std::ffi::OsString;
use std::process::ExitCode;

use answer::Answer;
use fault::Fault;

/// Runs the command that the first word names on the words behind it.
fn run(mut words: impl Iterator<Item = OsString>) -> Result<Answer, Fault> {
    let command = words.next().unwrap_or_default();
    match command.to_str() {
        Some("invoice") => invoice::run(words),
        Some("till") => till::run(words),
        Some("stream") => stream::run(words),
        Some("message") => message::run(words),
        Some("tables") => tables::run(words),
        _ => Err(Fault {
            status: 4,
            words: format!("there is no command {} (tockplover help lists them)", shown::name(&command)),
        }),
    }
}

fn main() -> ExitCode {
    let ended = run(env::args_os().skip(1)).and_then(|answer| {
        output::print(&answer.text)?;
        Ok(answer.status)
    });
    ExitCode::from(ended.unwrap_or_else(|fault| {
        output::say(&fault.words);
        fault.status
    }))
}

//! `tockplover tables`: whether a newer table of known types extends an older one.
use std::ffi::OsString;

use tockplover::table::{extends, Extension};

use crate::answer::{Answer, Item, Stop};
use crate::call::Call;
use crate::fault::Fault;
use crate::form;
use crate::shown::count;
use crate::table::{find, rows, Row, Table};

/// A row in words.
fn row_words(row: &Row) -> String {
    format!(
        "namespace {} type {}, {}",
        row.namespace,
        row.kind,
        form::words(row.form, row.parameter)
    )
}

/// What a reader does with a record whose type its table lacks.
fn without_row(row: &Row) -> &'static str {
    if row.kind % 2 == 1 {
        "passes its records over"
    } else {
        "refuses a stream that has it, with 7"
    }
}

/// The line of a row that the older table lacks; none where the older has the type.
fn new_line(older: &[u64], row: Row) -> Option<String> {
    let parity = if row.kind % 2 == 1 { "odd" } else { "even" };
    match find(older, row.namespace, row.kind) {
        Some(_) => None,
        None => Some(format!(
            "new: {}; {parity}, so an old gateway {}\n",
            row_words(&row),
            without_row(&row)
        )),
    }
}

/// The line of an older row that the newer table has otherwise, or not at all.
fn lost_line(newer: &[u64], row: Row) -> Option<String> {
    match find(newer, row.namespace, row.kind) {
        Some(now) if now == row => None,
        Some(now) => Some(format!(
            "changed: {}; now {}, so two gateways may read its value differently\n",
            row_words(&row),
            form::words(now.form, now.parameter)
        )),
        None => Some(format!("gone: {}; a new gateway {}\n", row_words(&row), without_row(&row))),
    }
}

/// What the comparison means; the question itself is the library's.
fn verdict(older: &[u64], newer: &[u64]) -> (u8, String) {
    match extends(older, newer) {
        Extension::Extends => (
            0,
            "extends: the newer table holds every row of the older one unchanged, so where an old and a new gateway both accept a stream, they see \
             the same records\n"
                .to_string(),
        ),
        Extension::Lacks(row) => (
            1,
            format!(
                "does not extend: row {} of the older table is not in the newer one as it was; the promise for tables that extend (demand 3) does \
                 not hold, and an old and a new gateway may disagree\n",
                row + 1
            ),
        ),
        Extension::OlderRefused(refusal) | Extension::NewerRefused(refusal) => (1, format!("{refusal}\n")),
    }
}

/// Two tables compared.
fn compared(older: &Table, newer: &Table) -> Answer {
    let (old, new) = (&older.numbers[..], &newer.numbers[..]);
    let mut text = format!("older: {}, {}\n", older.name, count(older.rows(), "row"));
    text += &format!("newer: {}, {}\n", newer.name, count(newer.rows(), "row"));
    text.extend(rows(new).filter_map(|row| new_line(old, row)));
    text.extend(rows(old).filter_map(|row| lost_line(new, row)));
    let (status, verdict) = verdict(old, new);
    Answer {
        text: text + &verdict,
        status,
    }
}

/// Reads the two tables of a call and compares them.
fn ask(call: &Call) -> Result<Answer, Stop> {
    let [older, newer] = &call.words[..] else {
        return Err(Fault::wrong_call("tables", "tables takes two files, OLD and NEW".to_string()).into());
    };
    let (older, newer) = (Table::read(older)?, Table::read(newer)?);
    older.check()?;
    newer.check()?;
    Ok(compared(&older, &newer))
}

/// Runs the command.
pub fn run(words: impl Iterator<Item = OsString>) -> Result<Answer, Fault> {
    let call = Call::read("tables", &[], words)?;
    match ask(&call) {
        Ok(answer) => Ok(answer),
        Err(Stop::Refused(refused)) => Ok(Answer {
            text: refused.lines(),
            status: 1,
        }),
        Err(Stop::Fault(fault)) => Err(fault),
    }
}

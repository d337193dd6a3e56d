//! `tockplover stream`: one record stream, judged by a table of known types.
use std::ffi::{OsStr, OsString};

use tockplover::stream;

use crate::answer::{answer, Answer, Item, Stop};
use crate::call::{Call, Takes};
use crate::fault::Fault;
use crate::hex;
use crate::json::Json;
use crate::record::{no_names, Records};
use crate::refused::Refused;
use crate::table::{self, Table};

/// A stream that was read in a namespace.
struct StreamItem {
    namespace: u64,
    records: Records,
}

impl Item for StreamItem {
    fn lines(&self) -> String {
        format!(
            "stream in namespace {}: {}\n{}",
            self.namespace,
            self.records.words(),
            self.records.lines(0)
        )
    }

    fn json(&self) -> Json {
        let mut pairs = vec![("namespace", Json::Number(self.namespace))];
        pairs.extend(self.records.pairs());
        Json::Object(pairs)
    }
}

/// The namespace that a call names, or 0.
fn namespace(given: Option<&OsStr>) -> Result<u64, Fault> {
    let Some(word) = given else {
        return Ok(0);
    };
    table::number(&word.to_string_lossy())
        .map_err(|words| Fault::wrong_call("stream", format!("stream --namespace takes a number: {words}")))
}

/// Reads the stream of a call.
fn ask(call: &Call) -> Result<StreamItem, Stop> {
    let namespace = namespace(call.namespace.as_deref())?;
    let table = call.table.as_deref().map_or(Ok(Table::default()), Table::read)?;
    table.check()?;
    let bytes = hex::from_call("stream", call)?;
    let mut index = vec![0; 2 * bytes.len()];
    let reading = stream::read(&table.numbers, namespace, &bytes, &mut index).map_err(|refusal| Refused::of_bytes(refusal, &bytes))?;
    Ok(StreamItem {
        namespace,
        records: Records::of(&table.numbers, namespace, &reading, no_names),
    })
}

/// Runs the command.
pub fn run(words: impl Iterator<Item = OsString>) -> Result<Answer, Fault> {
    let call = Call::read("stream", &[Takes::Json, Takes::Table, Takes::Namespace], words)?;
    answer(ask(&call), call.json)
}

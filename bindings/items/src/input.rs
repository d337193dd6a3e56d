//! Files and standard input, read up to a limit.
use std::ffi::OsStr;
use std::fs::File;
use std::io::{self, ErrorKind, IsTerminal, Read};

use crate::fault::Fault;
use crate::output::{reason, say};
use crate::shown;

/// No input has more bytes: eight times the digits of the longest stream, so that blanks and line ends have room, and an endless input ends.
const MOST: usize = 1 << 20;

/// What UTF-8 text from some systems begins with.
const BYTE_ORDER_MARK: &[u8] = b"\xef\xbb\xbf";

/// All bytes of an input.
fn bytes(from: impl Read, name: &str) -> Result<Vec<u8>, Fault> {
    let mut bytes = Vec::new();
    // a byte more tells a longer one
    let read = from.take(MOST as u64 + 1).read_to_end(&mut bytes);
    match read {
        Err(error) => Err(Fault::no_output(format!("{name} cannot be read: {}", reason(&error)))),
        Ok(size) if size > MOST => Err(Fault::no_output(format!("{name} has over {MOST} bytes; it is not read further"))),
        Ok(_) => Ok(bytes),
    }
}

/// A text's bytes without the byte-order mark in front.
pub fn unmarked(text: &[u8]) -> &[u8] {
    text.strip_prefix(BYTE_ORDER_MARK).unwrap_or(text)
}

/// The text on standard input; someone at a terminal is told what is waited for. A byte-order mark in front is passed over, and said.
pub fn standard(what: &str) -> Result<Vec<u8>, Fault> {
    let input = io::stdin();
    if input.is_terminal() {
        say(&format!("reading {what} from standard input"));
    }
    let text = bytes(input.lock(), "standard input")?;
    let plain = unmarked(&text);
    if plain.len() < text.len() {
        say("a byte-order mark in front is passed over");
    }
    Ok(plain.to_vec())
}

/// The bytes of a file.
pub fn file(name: &OsStr) -> Result<Vec<u8>, Fault> {
    let shown = shown::name(name);
    let file = File::open(name).map_err(|error| {
        Fault::no_output(match error.kind() {
            ErrorKind::NotFound => format!("there is no file {shown}"),
            _ => format!("{shown} cannot be read: {}", reason(&error)),
        })
    })?;
    if file.metadata().is_ok_and(|about| about.is_dir()) {
        return Err(Fault::no_output(format!("{shown} is a folder")));
    }
    bytes(file, &shown)
}

//! Standard output and standard error.
use std::fs::File;
use std::io::{self, Write};
use std::os::fd::AsFd;

use crate::fault::Fault;

/// What the system says of an error, without its number.
pub fn reason(error: &io::Error) -> String {
    let words = error.to_string();
    words.split(" (os error").next().unwrap_or_default().to_string()
}

/// Writes past the buffer of Rust's own standard output, so that a write that fails shows before the program ends.
fn write(text: &str) -> io::Result<()> {
    File::from(io::stdout().as_fd().try_clone_to_owned()?).write_all(text.as_bytes())
}

/// Writes to standard output.
pub fn print(text: &str) -> Result<(), Fault> {
    write(text).map_err(|error| Fault::no_output(format!("standard output cannot be written: {}", reason(&error))))
}

/// Says something on standard error; where that cannot be written either, the exit status has to do.
pub fn say(words: &str) {
    let _ = writeln!(io::stderr(), "tockplover: {words}");
}

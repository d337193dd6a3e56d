//! The words of a call: options, and the words that are none.
use std::ffi::{OsStr, OsString};
use std::os::unix::ffi::OsStrExt;

use crate::fault::Fault;
use crate::shown;

/// An option that a command takes.
pub enum Takes {
    Json,
    Table,
    Namespace,
}

impl Takes {
    /// The option's word.
    fn spelling(&self) -> &'static str {
        match self {
            Takes::Json => "--json",
            Takes::Table => "--table",
            Takes::Namespace => "--namespace",
        }
    }
}

/// A call that was read.
#[derive(Default)]
pub struct Call {
    /// Whether JSON is asked for.
    pub json: bool,
    /// The file of the table.
    pub table: Option<OsString>,
    /// The namespace's number, as it was given.
    pub namespace: Option<OsString>,
    /// The words that are no options.
    pub words: Vec<OsString>,
}

/// Parts `--option=value`.
fn parted(word: &OsStr) -> (&[u8], Option<&OsStr>) {
    let bytes = word.as_bytes();
    match bytes.iter().position(|&byte| byte == b'=') {
        Some(at) => (&bytes[..at], Some(OsStr::from_bytes(&bytes[at + 1..]))),
        None => (bytes, None),
    }
}

impl Call {
    /// Reads the words of a command that takes some options. Behind `--` every word is no option; an option's value may be any word.
    pub fn read(command: &str, takes: &[Takes], mut words: impl Iterator<Item = OsString>) -> Result<Call, Fault> {
        let mut call = Call::default();
        while let Some(word) = words.next() {
            if word == "--" {
                call.words.extend(words);
                break;
            } else if word.len() > 1 && word.as_bytes()[0] == b'-' {
                call.take(command, takes, &word, &mut words)?;
            } else {
                call.words.push(word);
            }
        }
        Ok(call)
    }

    /// Takes an option, with the next word for its value where it needs one and has none behind a `=`.
    fn take(&mut self, command: &str, takes: &[Takes], word: &OsStr, words: &mut impl Iterator<Item = OsString>) -> Result<(), Fault> {
        let wrong = |words| Err(Fault::wrong_call(command, words));
        let (name, given) = parted(word);
        let Some(option) = takes.iter().find(|option| name == option.spelling().as_bytes()) else {
            return wrong(format!("{command} has no option {}", shown::name(word)));
        };
        let (place, what) = match option {
            Takes::Json if given.is_some() => return wrong(format!("{command} --json takes no value")),
            Takes::Json => {
                self.json = true;
                return Ok(());
            }
            Takes::Table => (&mut self.table, "a FILE"),
            Takes::Namespace => (&mut self.namespace, "a number"),
        };
        let spelling = option.spelling();
        if place.is_some() {
            return wrong(format!("{command} takes one {spelling}"));
        }
        *place = given.map(OsStr::to_os_string).or_else(|| words.next());
        match place {
            Some(_) => Ok(()),
            None => wrong(format!("{command} {spelling} needs {what}")),
        }
    }

    /// Whether the item is on standard input: no word is given, or a single `-`.
    pub fn is_on_input(&self) -> bool {
        self.words.is_empty() || self.words == ["-"]
    }

    /// The same for a command that takes any number of words, none of which may be a `-` beside others.
    pub fn is_all_on_input(&self, command: &str, word: &str) -> Result<bool, Fault> {
        if !self.is_on_input() && self.words.iter().any(|word| word == "-") {
            return Err(Fault::wrong_call(
                command,
                format!("{command} takes - for standard input alone, with no {word} beside it"),
            ));
        }
        Ok(self.is_on_input())
    }
}

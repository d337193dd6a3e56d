//! Calls that end without an answer.

/// Why there is no answer.
#[derive(Debug)]
pub struct Fault {
    /// The exit status.
    pub status: u8,
    /// What is said on standard error.
    pub words: String,
}

impl Fault {
    /// Status 3: an input that cannot be read as what it should be, or an output that cannot be written.
    pub fn no_output(words: String) -> Self {
        Fault { status: 3, words }
    }

    /// Status 4: a call that the command does not take; the help that says how is named too.
    pub fn wrong_call(command: &str, words: String) -> Self {
        Fault {
            status: 4,
            words: format!("{words} (tockplover {command} --help says how to call it)"),
        }
    }
}

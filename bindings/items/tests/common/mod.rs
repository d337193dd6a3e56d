//! Runs of the program, shared by the tests.
#![allow(dead_code)]
use std::ffi::OsStr;
use std::fs::{self, File};
use std::io::Write;
use std::path::{Path, PathBuf};
use std::process::{Command, Output, Stdio};

/// The program under test.
pub const ITEMS: &str = env!("CARGO_BIN_EXE_items");

/// The cup of coffee of BOLT 11's examples.
pub const COFFEE: &str =
    "lnbc2500u1pvjluezpp5qqqsyqcyq5rqwzqfqqqsyqcyq5rqwzqfqqqsyqcyq5rqwzqfqypqdq5xysxxatsyp3k7enxv4jsxqzpuaztrnwngzn3kdzw5hydlzf\
03qdgm2hdq27cqv3agm2awhz5se903vruatfhq77w3ls4evs3ch9zw97j25emudupq63nyw24cg27h2rspfj9srp";

/// The repository's root.
pub fn root() -> PathBuf {
    Path::new(env!("CARGO_MANIFEST_DIR")).join("../..")
}

/// A text of examples/items; one that is not there is empty.
pub fn stored(name: &str) -> String {
    fs::read_to_string(root().join("examples/items").join(name)).unwrap_or_default()
}

/// What a run wrote, and its exit status.
#[derive(Debug)]
pub struct Done {
    pub status: i32,
    pub out: String,
    pub err: String,
}

impl From<Output> for Done {
    fn from(output: Output) -> Self {
        Done {
            status: output.status.code().expect("no signal ended the program"),
            out: String::from_utf8(output.stdout).expect("standard output is UTF-8"),
            err: String::from_utf8(output.stderr).expect("standard error is UTF-8"),
        }
    }
}

/// A run at the repository's root, not begun yet.
pub fn command(words: &[impl AsRef<OsStr>]) -> Command {
    let mut command = Command::new(ITEMS);
    command.args(words).current_dir(root()).stdin(Stdio::null());
    command
}

/// A run without standard input.
pub fn run(words: &[impl AsRef<OsStr>]) -> Done {
    command(words).output().expect("the program runs").into()
}

/// A run with these bytes on standard input.
pub fn run_on(words: &[impl AsRef<OsStr>], input: &[u8]) -> Done {
    let mut child = command(words)
        .stdin(Stdio::piped())
        .stdout(Stdio::piped())
        .stderr(Stdio::piped())
        .spawn()
        .expect("the program runs");
    // a program that does not read all of it closes the pipe, which is no fault here
    let _ = child.stdin.take().expect("standard input is a pipe").write_all(input);
    child.wait_with_output().expect("the program ends").into()
}

/// Asserts that a call has no answer: nothing on standard output, and one line on standard error.
#[track_caller]
pub fn assert_fault(done: &Done, status: i32, words: &str) {
    assert_eq!(
        (done.status, done.out.as_str(), done.err.as_str()),
        (status, "", &*format!("tockplover: {words}\n"))
    );
}

/// A folder of a test's own, which goes with it.
pub struct Folder(pub PathBuf);

impl Folder {
    pub fn new(name: &str) -> Self {
        let folder = std::env::temp_dir().join(format!("tockplover items {} {name}", std::process::id()));
        fs::create_dir_all(&folder).expect("a folder can be made");
        Folder(folder)
    }

    /// Writes a file in the folder.
    pub fn file(&self, name: &str, content: &[u8]) -> PathBuf {
        let path = self.0.join(name);
        File::create(&path)
            .and_then(|mut file| file.write_all(content))
            .expect("a file can be written");
        path
    }
}

impl Drop for Folder {
    fn drop(&mut self) {
        let _ = fs::remove_dir_all(&self.0);
    }
}

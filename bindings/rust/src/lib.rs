//! Reads and writes BigSize numbers, record streams, messages and invoices of the Lightning network, tells which rules of the till profile an
//! invoice breaks, mends old streams, reports on recording books and adds them up.
//!
//! The work is done by a library that is proved to answer as its definitions say, for every input; this crate is the safe way to call it
//! from Rust. It has no dependency, allocates nothing and keeps nothing: what it reads and writes are the caller's slices.
//!
//! An answer is a [`Result`] whose error is a [`Refusal`], which says what is wrong and what to do about it. What is written stands at the
//! front of the output that the caller lends, and is handed back as a part of it; the rest of the output stays as it was. On a refusal every
//! output stays as it was, whole. An output that is too short is refused with [`numbers::NO_ROOM`].
//!
//! ```
//! // Type 1 is an integer of at most 8 bytes in namespace 0.
//! let table = [0, 1, 2, 8];
//! let mut index = [0; 8];
//! let stream = tockplover::stream::read(&table, 0, &[1, 2, 1, 0], &mut index)?;
//! let first = stream.records().next().unwrap();
//! assert_eq!((first.kind, first.value, first.known), (1, &[1, 0][..], true));
//!
//! let refusal = tockplover::stream::count(&table, 0, &[0x12, 0]).unwrap_err();
//! assert_eq!(refusal.to_string(), "refused 7 at 0 type 18: the type is even, and the table does not know it");
//!
//! // Of what is cut short a refusal tells how many bytes are missing.
//! let refusal = tockplover::stream::count(&table, 0, &[1, 5]).unwrap_err();
//! assert_eq!(refusal.missing, 5);
//! # Ok::<(), tockplover::Refusal>(())
//! ```
#![deny(missing_docs, unsafe_code)]
#![no_std]

pub mod address;
pub mod bigsize;
pub mod book;
pub mod invoice;
pub mod mender;
pub mod message;
pub mod money;
pub mod month;
pub mod numbers;
mod raw;
mod refusal;
pub mod stream;
pub mod table;
pub mod till;
mod words;

pub use refusal::{Lack, Refusal};

// the README's example is tested with the others
#[cfg(doctest)]
#[doc = include_str!("../README.md")]
struct Readme;

/// The version of this crate and of the C header beside it.
pub const VERSION: &str = env!("CARGO_PKG_VERSION");

/// The same version as [`version`] tells it.
pub const VERSION_NUMBER: u64 =
    10_000 * part(env!("CARGO_PKG_VERSION_MAJOR")) + 100 * part(env!("CARGO_PKG_VERSION_MINOR")) + part(env!("CARGO_PKG_VERSION_PATCH"));

/// A part of the version.
const fn part(digits: &str) -> u64 {
    match u64::from_str_radix(digits, 10) {
        Ok(part) => part,
        Err(_) => panic!("a part of the version is a number"),
    }
}

/// The version of the linked archive: `major * 10_000 + minor * 100 + patch`. It is [`VERSION_NUMBER`] where crate and archive belong
/// together; of any other archive nothing else may be asked, for its answers may be laid out otherwise.
///
/// ```
/// assert_eq!(tockplover::version(), tockplover::VERSION_NUMBER);
/// ```
pub fn version() -> u64 {
    raw::version()
}

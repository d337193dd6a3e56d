//! Documents 01 and 02 in plain Rust: BigSize, record streams, the table of known types, address descriptors, messages,
//! invoices and the recording book, each read and written, invoices held to the till's rules, and old streams mended.
//!
//! Every question takes slices and numbers and answers `Ok` or a [`Refusal`]. On a refusal no lent buffer is changed;
//! otherwise the answer stands at a buffer's front and the rest of it is as it came.

pub mod address;
pub mod bech32;
pub mod bigsize;
pub mod book;
pub mod field;
pub mod gen;
pub mod invoice;
pub mod invoice_writer;
pub mod mender;
pub mod message;
pub mod message_writer;
pub mod money;
pub mod month;
mod output;
pub mod refusal;
pub mod stream;
pub mod stream_writer;
pub mod table;
pub mod till;

pub use refusal::Refusal;

/// A run of bytes or characters inside the lent ones.
#[derive(Clone, Copy, Debug, Default, PartialEq, Eq)]
pub struct Part {
    /// Where it begins, counted from the first of the lent bytes.
    pub start: usize,
    /// How many there are.
    pub length: usize,
}

impl Part {
    /// Where it ends.
    pub fn end(self) -> usize {
        self.start + self.length
    }
}

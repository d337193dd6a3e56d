//! Month-end figures: exact numbers over many recording books.
//!
//! A run begins with [`Figures::empty`], and each book is given to [`Figures::add`]. Nothing outside this module alters figures between two
//! books, so that those of a run are always what its books come to.
//!
//! ```
//! use tockplover::month::Figures;
//! // Two books of the same stream: the table of the one knows its record's type, that of the other is empty.
//! let row = [0_u64, 1, 2, 8].map(u64::to_be_bytes).concat();
//! let sections = [0, 1, 0, 0, 3, 1, 1, 42, 0, 0, 0, 0];
//! let mut figures = Figures::empty();
//! for table in [&[&[0, 1], &row[..]].concat()[..], &[0, 0]] {
//!     let (next, answer) = figures.add(&[table, &sections].concat());
//!     answer?;
//!     figures = next;
//! }
//! let row = figures.rows().next().unwrap();
//! assert_eq!((row.namespace, row.kind), (0, 1));
//! assert_eq!((row.known, row.known_bytes, row.passed_over, row.passed_over_bytes, row.frame_bytes), (1, 1, 1, 1, 4));
//! assert_eq!((figures.books(), figures.satoshi()), (2, Some(0)));
//! # Ok::<(), tockplover::Refusal>(())
//! ```
use core::fmt;

use crate::raw;
use crate::Refusal;

/// A run has no more books.
pub const BOOKS_MOST: u64 = 1_000;

/// Figures have no more rows.
pub const PAIRS_MOST: usize = raw::PAIRS_MOST;

/// No sum has more digits.
pub const DECIMAL_MOST: usize = 39;

/// What the outer records of one namespace and type come to.
#[derive(Clone, Copy, Debug, PartialEq, Eq)]
#[non_exhaustive]
pub struct Row {
    /// The namespace of their streams.
    pub namespace: u64,
    /// Their type.
    pub kind: u64,
    /// How many the table of their book knows.
    pub known: u64,
    /// The bytes of the values of these.
    pub known_bytes: u64,
    /// How many are passed over.
    pub passed_over: u64,
    /// The bytes of the values of these.
    pub passed_over_bytes: u64,
    /// The bytes spent on the types and lengths of all of them.
    pub frame_bytes: u64,
}

/// The figures of the books so far. They are 28,720 bytes, which go in and come back by value.
#[derive(Clone, PartialEq, Eq)]
pub struct Figures(raw::Figures);

impl Figures {
    /// The figures before the first book.
    pub fn empty() -> Self {
        Figures(raw::month_empty())
    }

    /// Adds a book, whose accepted streams and invoices count, and hands back the figures with its answer. All 28,720 bytes go in and come back
    /// by value, over the stack.
    ///
    /// Refused: 73 where the figures are none; 76 for a book behind the thousandth, which is not looked at and leaves the figures as they were;
    /// the book's own 72, 70, 71, 60 to 63, after which the book is counted and nothing else; 73 where there are over 512 different pairs of
    /// namespace and type, after which the figures are none.
    ///
    /// ```
    /// let (figures, answer) = tockplover::month::Figures::empty().add(&[]);
    /// assert_eq!(answer.unwrap_err().number, tockplover::numbers::BOOK_CUT);
    /// assert_eq!(figures.books(), 1);
    /// ```
    #[allow(clippy::should_implement_trait, reason = "there is an answer beside the figures")]
    pub fn add(self, book: &[u8]) -> (Self, Result<(), Refusal>) {
        let added = raw::month_add(self.0, book);
        (Figures(added.figures), raw::accepted(added.refusal))
    }

    /// Whether there are no figures, as from the first 73 on; then all numbers are 0 and there are no rows.
    pub fn are_none(&self) -> bool {
        self.0.pairs > PAIRS_MOST as u64
    }

    /// How many books were given, those too that were refused.
    pub fn books(&self) -> u64 {
        self.0.books
    }

    /// A row for each pair of namespace and type that was met, rising by namespace, then type.
    pub fn rows(&self) -> impl ExactSizeIterator<Item = Row> + '_ {
        let count = if self.are_none() { 0 } else { self.0.pairs as usize };
        self.0.rows.chunks_exact(raw::PAIR_NUMBERS).take(count).map(|row| Row {
            namespace: row[0],
            kind: row[1],
            known: row[2],
            known_bytes: row[3],
            passed_over: row[4],
            passed_over_bytes: row[5],
            frame_bytes: row[6],
        })
    }

    /// How many invoices were accepted.
    pub fn invoices(&self) -> u64 {
        self.0.invoices
    }

    /// How many of these have no amount.
    pub fn without_amount(&self) -> u64 {
        self.0.unpriced
    }

    /// The sum of the others' amounts, in millisatoshi.
    pub fn millisatoshi(&self) -> u128 {
        self.0.sum.into()
    }

    /// The same sum in satoshi, as [`satoshi`] has it.
    pub fn satoshi(&self) -> Option<u128> {
        satoshi(self.millisatoshi())
    }
}

impl Default for Figures {
    fn default() -> Self {
        Figures::empty()
    }
}

impl fmt::Debug for Figures {
    fn fmt(&self, f: &mut fmt::Formatter<'_>) -> fmt::Result {
        let raw::Figures {
            books, invoices, unpriced, ..
        } = self.0;
        let sum = self.millisatoshi();
        write!(
            f,
            "Figures {{ {books} books, {invoices} invoices, {unpriced} without amount, {sum} millisatoshi, rows "
        )?;
        f.debug_list().entries(self.rows()).finish()?;
        f.write_str(" }")
    }
}

/// A sum of millisatoshis in satoshi; none where it is no whole number of them.
///
/// ```
/// assert_eq!(tockplover::month::satoshi(1_000 << 64), Some(1 << 64));
/// assert_eq!(tockplover::month::satoshi(1), None);
/// ```
pub fn satoshi(millisatoshi: u128) -> Option<u128> {
    let raw::Halves { high, low } = millisatoshi.into();
    let answer = raw::month_satoshi(high, low);
    (answer.outcome == raw::ACCEPTED).then(|| answer.satoshi.into())
}

/// Writes a sum in decimal digits; [`DECIMAL_MOST`] bytes always suffice. Refused: 12.
///
/// ```
/// let mut out = [0; tockplover::month::DECIMAL_MOST];
/// assert_eq!(tockplover::month::decimal(1 << 64, &mut out)?, b"18446744073709551616");
/// # Ok::<(), tockplover::Refusal>(())
/// ```
pub fn decimal(sum: u128, out: &mut [u8]) -> Result<&[u8], Refusal> {
    let raw::Halves { high, low } = sum.into();
    raw::written(raw::month_decimal(high, low, out), out)
}

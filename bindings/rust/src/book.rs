//! The recording book.
use crate::raw;
use crate::Refusal;

/// No report has more bytes.
pub const REPORT_MOST: usize = 1_966_198;

/// Writes the report on a book, as text in lines. A bad book is no refusal: its report is `book refused` and the number. The line of a stream or
/// a message that is cut short (1, 4, 6) ends in `missing` and how many bytes it lacks. Refused: 12.
///
/// ```
/// let mut out = [0; 100];
/// let report = tockplover::book::report(&[0; 8], &mut out)?;
/// assert_eq!(report, b"rows 0\nend streams 0 messages 0 invoices 0 refused 0\n");
/// # Ok::<(), tockplover::Refusal>(())
/// ```
pub fn report<'o>(book: &[u8], out: &'o mut [u8]) -> Result<&'o [u8], Refusal> {
    raw::written(raw::book_report(book, out), out)
}

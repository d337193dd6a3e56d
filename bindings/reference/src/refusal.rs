//! The refusal list.

/// Why an input is refused, and where.
#[derive(Clone, Copy, Debug, PartialEq, Eq)]
pub struct Refusal {
    /// The number in the refusal list.
    pub number: u8,
    /// The first byte of the innermost faulty record, or what the question counts instead.
    pub place: usize,
    /// The type of that record or message, or 0.
    pub kind: u64,
    /// How many bytes are missing from what is cut short, or 0.
    pub missing: u64,
}

impl Refusal {
    /// A refusal of what is cut short, with how many bytes are missing from it.
    pub const fn lacking(number: u8, place: usize, kind: u64, missing: u64) -> Self {
        Self { number, place, kind, missing }
    }

    /// A refusal with place and type; nothing is missing.
    pub const fn at(number: u8, place: usize, kind: u64) -> Self {
        Self::lacking(number, place, kind, 0)
    }

    /// A refusal whose place and type are 0.
    pub const fn bare(number: u8) -> Self {
        Self::at(number, 0, 0)
    }
}

/// The refusal unless the test holds.
pub(crate) fn ensure(test: bool, refusal: Refusal) -> Result<(), Refusal> {
    if test {
        Ok(())
    } else {
        Err(refusal)
    }
}

/// Type cut short.
pub const TYPE_CUT: u8 = 1;
/// Type not in its shortest form.
pub const TYPE_NOT_SHORTEST: u8 = 2;
/// Type not above the one before.
pub const TYPE_NOT_RISING: u8 = 3;
/// Length missing or cut.
pub const LENGTH_CUT: u8 = 4;
/// Length not in its shortest form.
pub const LENGTH_NOT_SHORTEST: u8 = 5;
/// Value cut short.
pub const VALUE_CUT: u8 = 6;
/// Unknown even type.
pub const UNKNOWN_EVEN_TYPE: u8 = 7;
/// Value length wrong.
pub const VALUE_LENGTH: u8 = 8;
/// Integer with a leading zero byte.
pub const LEADING_ZERO: u8 = 9;
/// Point that does not begin with 2 or 3.
pub const POINT_BYTE: u8 = 10;
/// Stream inside a level 4 stream.
pub const TOO_DEEP: u8 = 11;
/// Index or output too short for the whole answer.
pub const NO_ROOM: u8 = 12;
/// BigSize asked of nothing.
pub const NO_BYTES: u8 = 13;
/// Stream over 65,535 bytes.
pub const STREAM_TOO_LONG: u8 = 14;
/// Type absent.
pub const TYPE_ABSENT: u8 = 15;
/// Writer's triples incomplete, or a part outside what is lent.
pub const OUTSIDE: u8 = 16;
/// Message or payload cut, or a writer's channel not of 32 bytes.
pub const MESSAGE_CUT: u8 = 20;
/// Message over 65,535 bytes.
pub const MESSAGE_TOO_LONG: u8 = 21;
/// Unknown even message type, in the writer any but the five.
pub const UNKNOWN_MESSAGE: u8 = 22;
/// Text over 4,096 characters.
pub const TEXT_TOO_LONG: u8 = 30;
/// Byte outside 33 to 126.
pub const BYTE_NO_CHARACTER: u8 = 31;
/// Both cases.
pub const BOTH_CASES: u8 = 32;
/// No separator, nothing before it or under 117 characters after.
pub const SEPARATOR: u8 = 33;
/// Character outside the alphabet, or a group above 31.
pub const NO_GROUP: u8 = 34;
/// Checksum.
pub const CHECKSUM: u8 = 35;
/// Prefix.
pub const PREFIX: u8 = 36;
/// Amount.
pub const AMOUNT: u8 = 37;
/// Fields that do not end at the signature.
pub const FIELDS: u8 = 38;
/// Recovery byte.
pub const RECOVERY_BYTE: u8 = 39;
/// No usable p.
pub const NO_PAYMENT_HASH: u8 = 40;
/// Time of 2^35 or more.
pub const TIME: u8 = 42;
/// Not whole satoshis.
pub const NOT_WHOLE_SATOSHIS: u8 = 43;
/// Table not in fours or over 256 rows.
pub const TABLE_SIZE: u8 = 60;
/// Namespace over 63.
pub const NAMESPACE: u8 = 61;
/// Rows not rising.
pub const ROWS_NOT_RISING: u8 = 62;
/// Form or parameter.
pub const FORM: u8 = 63;
/// Book cut short.
pub const BOOK_CUT: u8 = 70;
/// Bytes after the book's end.
pub const BYTES_AFTER_BOOK: u8 = 71;
/// Book over 65,535 bytes.
pub const BOOK_TOO_LONG: u8 = 72;
/// Over 512 pairs of namespace and type.
pub const TOO_MANY_PAIRS: u8 = 73;
/// A further book after 1,000.
pub const TOO_MANY_BOOKS: u8 = 76;
/// Two values of one type.
pub const TWO_VALUES: u8 = 80;

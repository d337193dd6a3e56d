//! The exported functions, each behind one that takes slices, so that no length can be another than the slice's.
#![allow(unsafe_code)]
use crate::Refusal;

/// The outcomes of a question that has more answers than yes and a refusal.
pub const ACCEPTED: u8 = 0;
pub const NONE: u8 = 2;

/// The outcomes of `table_extends`, besides `ACCEPTED`.
pub const OLDER_REFUSED: u8 = 1;
pub const LACKS: u8 = 2;

#[repr(C)]
pub struct Size {
    pub refusal: Refusal,
    pub size: usize,
}

#[repr(C)]
pub struct Value {
    pub refusal: Refusal,
    pub value: u64,
}

#[repr(C)]
pub struct Number {
    pub refusal: Refusal,
    pub value: u64,
    pub width: usize,
}

#[repr(C)]
pub struct Extension {
    pub refusal: Refusal,
    pub outcome: u8,
    pub row: usize,
}

#[repr(C)]
pub struct Counts {
    pub refusal: Refusal,
    pub records: usize,
    pub known: usize,
}

#[repr(C)]
pub struct Span {
    pub refusal: Refusal,
    pub start: usize,
    pub size: usize,
}

#[repr(C)]
pub struct Part {
    pub start: usize,
    pub size: usize,
}

#[repr(C)]
pub struct Address {
    pub refusal: Refusal,
    pub kind: u8,
    pub rest: Part,
}

#[repr(C)]
pub struct Message {
    pub refusal: Refusal,
    pub outcome: u8,
    pub kind: u64,
    pub first: Part,
    pub last: Part,
    pub wanted: u64,
    pub extension: Part,
    pub records: usize,
    pub known: usize,
}

#[repr(C)]
pub struct Reply {
    pub refusal: Refusal,
    pub outcome: u8,
    pub size: usize,
}

#[repr(C)]
pub struct Invoice {
    pub refusal: Refusal,
    pub prefix: u8,
    pub asked: u8,
    pub amount: Part,
    pub msat: u64,
    pub time: u64,
    pub groups: usize,
    pub fields: usize,
    pub payment: usize,
    pub expiry: u64,
    pub delta: u64,
}

#[repr(C)]
pub struct Entry {
    pub refusal: Refusal,
    pub outcome: u8,
    pub channel: u64,
    pub fee: u64,
    pub delta: u16,
}

#[repr(C)]
pub struct Profile {
    pub refusal: Refusal,
    pub count: usize,
    pub rules: [u8; 6],
}

/// The number `high * 2^64 + low`.
#[derive(Clone, Copy, Debug, PartialEq, Eq)]
#[repr(C)]
pub struct Halves {
    pub high: u64,
    pub low: u64,
}

impl From<Halves> for u128 {
    fn from(Halves { high, low }: Halves) -> Self {
        u128::from(high) << 64 | u128::from(low)
    }
}

impl From<u128> for Halves {
    fn from(number: u128) -> Self {
        let (high, low) = ((number >> 64) as u64, number as u64);
        Halves { high, low }
    }
}

/// The most rows of figures, and the numbers of a row.
pub const PAIRS_MOST: usize = 512;
pub const PAIR_NUMBERS: usize = 7;

#[derive(Clone, Debug, PartialEq, Eq)]
#[repr(C)]
pub struct Figures {
    pub books: u64,
    pub pairs: u64,
    pub rows: [u64; PAIRS_MOST * PAIR_NUMBERS],
    pub invoices: u64,
    pub unpriced: u64,
    pub sum: Halves,
}

#[repr(C)]
pub struct Added {
    pub refusal: Refusal,
    pub figures: Figures,
}

#[repr(C)]
pub struct Satoshi {
    pub outcome: u8,
    pub satoshi: Halves,
}

#[repr(C)]
pub struct Changes {
    pub moved: usize,
    pub dropped: usize,
    pub respelled: usize,
    pub cut: usize,
}

#[repr(C)]
pub struct Mended {
    pub refusal: Refusal,
    pub size: usize,
    pub changes: Changes,
}

/// The refusal as an error, where there is one.
pub fn accepted(refusal: Refusal) -> Result<(), Refusal> {
    if refusal.number == 0 {
        Ok(())
    } else {
        Err(refusal)
    }
}

/// The front of an output, where it was written.
pub fn written<T>(answer: Size, out: &mut [T]) -> Result<&[T], Refusal> {
    accepted(answer.refusal)?;
    Ok(&out[..answer.size])
}

/// Declares an exported function, and a safe one over it. A parameter is a number or a struct, each by value, `[T]` for a lent slice, or `mut [T]` for
/// a lent output.
macro_rules! exports {
    ($($export:ident as $name:ident($($rest:tt)*) -> $answer:ty;)*) => {
        $(exports!(@one $export $name $answer; () () (); $($rest)*);)*
    };
    (@one $export:ident $name:ident $answer:ty; ($($raw:tt)*) ($($safe:tt)*) ($($pass:tt)*); $p:ident: [$t:ty], $($rest:tt)*) => {
        exports!(@one $export $name $answer; ($($raw)* $p: *const $t, _: usize,) ($($safe)* $p: &[$t],) ($($pass)* $p.as_ptr(), $p.len(),); $($rest)*);
    };
    (@one $export:ident $name:ident $answer:ty; ($($raw:tt)*) ($($safe:tt)*) ($($pass:tt)*); $p:ident: mut [$t:ty], $($rest:tt)*) => {
        exports!(@one $export $name $answer; ($($raw)* $p: *mut $t, _: usize,) ($($safe)* $p: &mut [$t],) ($($pass)* $p.as_mut_ptr(), $p.len(),); $($rest)*);
    };
    (@one $export:ident $name:ident $answer:ty; ($($raw:tt)*) ($($safe:tt)*) ($($pass:tt)*); $p:ident: $t:ty, $($rest:tt)*) => {
        exports!(@one $export $name $answer; ($($raw)* $p: $t,) ($($safe)* $p: $t,) ($($pass)* $p,); $($rest)*);
    };
    (@one $export:ident $name:ident $answer:ty; ($($raw:tt)*) ($($safe:tt)*) ($($pass:tt)*);) => {
        pub fn $name($($safe)*) -> $answer {
            extern "C" {
                fn $export($($raw)*) -> $answer;
            }
            // Each pointer and length are those of one slice, which is never null; outputs are `&mut`, so that none overlaps another slice.
            unsafe { $export($($pass)*) }
        }
    };
}

exports! {
    tockplover_version as version() -> u64;
    tockplover_bigsize_read as bigsize_read(bytes: [u8],) -> Number;
    tockplover_bigsize_write as bigsize_write(value: u64, out: mut [u8],) -> Size;
    tockplover_table_check as table_check(table: [u64],) -> Refusal;
    tockplover_table_extends as table_extends(older: [u64], newer: [u64],) -> Extension;
    tockplover_stream_count as stream_count(table: [u64], namespace: u64, stream: [u8],) -> Counts;
    tockplover_stream_read as stream_read(table: [u64], namespace: u64, stream: [u8], index: mut [u64],) -> Counts;
    tockplover_stream_contains as stream_contains(table: [u64], namespace: u64, stream: [u8], kind: u64,) -> Refusal;
    tockplover_stream_value as stream_value(table: [u64], namespace: u64, stream: [u8], kind: u64,) -> Span;
    tockplover_stream_write as stream_write(table: [u64], namespace: u64, triples: [u64], source: [u8], out: mut [u8],) -> Size;
    tockplover_address_read as address_read(value: [u8],) -> Address;
    tockplover_address_write as address_write(kind: u8, rest: [u8], out: mut [u8],) -> Size;
    tockplover_message_read as message_read(message: [u8], index: mut [u64],) -> Message;
    tockplover_message_address as message_address(message: [u8],) -> Span;
    tockplover_message_write as message_write(
        kind: u64, first: [u8], last: [u8], wanted: u16, triples: [u64], source: [u8], out: mut [u8],
    ) -> Size;
    tockplover_message_group as message_group(kind: u64,) -> u64;
    tockplover_message_join_features as message_join_features(a: [u8], b: [u8], out: mut [u8],) -> Size;
    tockplover_message_pong as message_pong(wanted: u64, out: mut [u8],) -> Reply;
    tockplover_invoice_read as invoice_read(text: [u8], groups: mut [u8], index: mut [u64],) -> Invoice;
    tockplover_invoice_write as invoice_write(
        prefix: u8, amount: [u8], time: u64, fields: [u8], signature: [u8], out: mut [u8],
    ) -> Size;
    tockplover_invoice_field_bytes as invoice_field_bytes(groups: [u8], start: u64, size: u64, out: mut [u8],) -> Size;
    tockplover_invoice_field_number as invoice_field_number(groups: [u8], start: u64, size: u64,) -> Value;
    tockplover_invoice_route_size as invoice_route_size(groups: [u8], kind: u64, start: u64, size: u64,) -> Value;
    tockplover_invoice_route_entry as invoice_route_entry(
        groups: [u8], kind: u64, start: u64, size: u64, k: u64, key: mut [u8],
    ) -> Entry;
    tockplover_invoice_field_from_bytes as invoice_field_from_bytes(kind: u8, bytes: [u8], out: mut [u8],) -> Size;
    tockplover_invoice_field_from_number as invoice_field_from_number(kind: u8, number: u64, out: mut [u8],) -> Size;
    tockplover_till_profile as till_profile(text: [u8],) -> Profile;
    tockplover_money_to_sat as money_to_sat(msat: u64,) -> Value;
    tockplover_book_report as book_report(book: [u8], out: mut [u8],) -> Size;
    tockplover_month_empty as month_empty() -> Figures;
    tockplover_month_add as month_add(figures: Figures, book: [u8],) -> Added;
    tockplover_month_satoshi as month_satoshi(high: u64, low: u64,) -> Satoshi;
    tockplover_month_decimal as month_decimal(high: u64, low: u64, out: mut [u8],) -> Size;
    tockplover_mend as mend(stream: [u8], out: mut [u8],) -> Mended;
}

#[cfg(test)]
mod tests {
    use super::*;
    use core::mem::{offset_of, size_of};

    // The sizes that the archive's structs have; bindings/c/calls.c holds the C header to the same.
    #[test]
    fn structs_are_laid_out_as_in_the_archive() {
        assert_eq!([size_of::<Refusal>(), offset_of!(Refusal, missing)], [32, 24]);
        assert_eq!([size_of::<Size>(), size_of::<Value>()], [40; 2]);
        assert_eq!([size_of::<Number>(), size_of::<Extension>(), size_of::<Counts>()], [48; 3]);
        assert_eq!([size_of::<Span>(), size_of::<Reply>()], [48; 2]);
        assert_eq!([size_of::<Part>(), size_of::<Address>()], [16, 56]);
        assert_eq!([size_of::<Message>(), size_of::<Invoice>(), size_of::<Entry>()], [120, 112, 64]);
        assert_eq!(size_of::<Profile>(), 48);
        assert_eq!([offset_of!(Profile, count), offset_of!(Profile, rules)], [32, 40]);
        assert_eq!([size_of::<Halves>(), size_of::<Satoshi>()], [16, 24]);
        assert_eq!([size_of::<Figures>(), size_of::<Added>()], [28_720, 28_752]);
        assert_eq!([size_of::<Changes>(), size_of::<Mended>()], [32, 72]);
    }
}

//! Inputs from a fixed seed, for differential tests and benchmarks: valid, damaged and adversarial ones for each
//! question. The same seed gives the same inputs on every machine.

mod addresses;
mod books;
mod invoices;
mod messages;
mod streams;
mod tills;

pub use addresses::{address_case, address_value, descriptor, AddressCase};
pub use books::{book, book_case, full_book, most_entries, BookCase};
pub use invoices::{amount, closed_text, field_case, full_invoice, invoice_case, invoice_text, text_of};
pub use invoices::{FieldCase, InvoiceCase};
pub use messages::{any_message, feature_maps, filled_init, init_with_address};
pub use messages::{message, message_case, wanted, MessageCase};
pub use streams::{any_table, bigsize_bytes, bigsize_form, few_of_many_rows, few_types, full_stream, many_rows};
pub use streams::{old_stream, records_of, spaced_rows, stream, stream_case, table, table_pair, triples_case};
pub use streams::{triples_of, StreamCase, TriplesCase, BOLT_1, METERS};
pub use tills::{at_most_two_rules, profile_of, refused_till, till_case, till_invoice, till_text, RULE_SETS};

/// A generator of pseudo-random numbers (splitmix64).
#[derive(Clone, Debug)]
pub struct Random(u64);

impl Random {
    /// The generator for a seed.
    pub fn new(seed: u64) -> Self {
        Self(seed)
    }

    /// The next 64 bits.
    pub fn number(&mut self) -> u64 {
        self.0 = self.0.wrapping_add(0x9e37_79b9_7f4a_7c15);
        let mut mixed = self.0;
        mixed = (mixed ^ mixed >> 30).wrapping_mul(0xbf58_476d_1ce4_e5b9);
        mixed = (mixed ^ mixed >> 27).wrapping_mul(0x94d0_49bb_1331_11eb);
        mixed ^ mixed >> 31
    }

    /// A number below `limit`, 0 for 0.
    pub fn below(&mut self, limit: usize) -> usize {
        (self.number() % (limit as u64).max(1)) as usize
    }

    /// True once in `times`.
    pub fn once_in(&mut self, times: usize) -> bool {
        self.below(times) == 0
    }

    /// A byte.
    pub fn byte(&mut self) -> u8 {
        self.number() as u8
    }

    /// So many bytes.
    pub fn bytes(&mut self, count: usize) -> Vec<u8> {
        (0..count).map(|_| self.byte()).collect()
    }

    /// So many bytes, if they are at most `most`.
    fn bytes_within(&mut self, count: usize, most: usize) -> Option<Vec<u8>> {
        (count <= most).then(|| self.bytes(count))
    }

    /// Up to `most` bytes, mostly few.
    fn some_bytes(&mut self, most: usize) -> Vec<u8> {
        let few = if self.once_in(16) { most } else { most.min(40) };
        let count = self.below(few);
        self.bytes(count)
    }

    /// One of the items.
    pub fn one_of<T: Copy>(&mut self, items: &[T]) -> T {
        items[self.below(items.len())]
    }

    /// A number of any width: each count of bits is as likely, and limits between widths come often.
    pub fn wide_number(&mut self) -> u64 {
        match self.below(4) {
            0 => self.below(253) as u64,
            1 => self
                .one_of(&[0, 252, 253, 0xffff, 0x1_0000, 0xffff_ffff, 1 << 32, u64::MAX])
                .wrapping_add(self.below(3) as u64)
                .wrapping_sub(1),
            _ => {
                let bits = self.below(64);
                self.number() >> bits
            }
        }
    }

    /// A length for a lent buffer that needs `wanted`: mostly enough, at times just too short.
    pub fn room(&mut self, wanted: usize) -> usize {
        match self.below(8) {
            0 => wanted.saturating_sub(1),
            1 => self.below(wanted + 1),
            2 => wanted,
            _ => wanted + self.below(9),
        }
    }
}

/// Whether what is generated keeps to the rules.
#[derive(Clone, Copy, Debug, PartialEq, Eq)]
pub enum Rules {
    /// Valid throughout.
    Kept,
    /// One choice in 24 breaks a rule.
    BrokenAtTimes,
}

impl Rules {
    /// One of the two.
    pub fn any(random: &mut Random) -> Self {
        random.one_of(&[Rules::Kept, Rules::BrokenAtTimes])
    }

    fn broken(self, random: &mut Random) -> bool {
        self == Rules::BrokenAtTimes && random.once_in(24)
    }
}

/// Bytes with a damage: one changed, cut off, added or doubled, or a few of these.
pub fn damaged(random: &mut Random, bytes: &[u8]) -> Vec<u8> {
    let mut bytes = bytes.to_vec();
    for _ in 0..=random.below(3) {
        let place = random.below(bytes.len());
        match random.below(7) {
            0 => bytes.truncate(place),
            1 => bytes.extend(random.number().to_be_bytes().iter().take(1 + place % 8)),
            2 => bytes.insert(place, random.one_of(&[0, 1, 2, 252, 253, 254, 255])),
            3 if !bytes.is_empty() => drop(bytes.remove(place)),
            4 if !bytes.is_empty() => bytes.insert(place, bytes[place]),
            5 if !bytes.is_empty() => {
                let end = (place + random.below(12)).min(bytes.len());
                bytes.extend_from_within(place..end);
            }
            _ if !bytes.is_empty() => bytes[place] ^= 1 << random.below(8),
            _ => {}
        }
    }
    bytes
}

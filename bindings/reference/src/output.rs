//! Bytes put one after the other into a lent output that is known to be long enough.

use crate::bigsize;

/// The front of a lent output that is still to be filled.
pub(crate) struct Output<'a> {
    rest: &'a mut [u8],
}

impl<'a> Output<'a> {
    pub(crate) fn new(out: &'a mut [u8]) -> Self {
        Self { rest: out }
    }

    /// The next `count` bytes, for the caller to fill.
    pub(crate) fn take(&mut self, count: usize) -> &'a mut [u8] {
        let (front, rest) = std::mem::take(&mut self.rest).split_at_mut(count);
        self.rest = rest;
        front
    }

    pub(crate) fn bytes(&mut self, bytes: &[u8]) {
        self.take(bytes.len()).copy_from_slice(bytes);
    }

    /// Two bytes, big-endian.
    pub(crate) fn u16(&mut self, number: u16) {
        self.bytes(&number.to_be_bytes());
    }

    /// A two-byte length and the bytes themselves.
    pub(crate) fn counted(&mut self, bytes: &[u8]) {
        self.u16(bytes.len() as u16);
        self.bytes(bytes);
    }

    pub(crate) fn bigsize(&mut self, value: u64) {
        let width = bigsize::width(value);
        bigsize::put(value, self.take(width));
    }
}

//! The buffers that a question lends: filled with a pattern, with more of it before and behind them.

/// How many elements stand before a lent buffer and behind it.
const GUARD: usize = 8;

/// What stands at a place before the question.
trait Pattern: Copy {
    fn at(place: usize) -> Self;
}

impl Pattern for u8 {
    fn at(place: usize) -> Self {
        (place as u8).wrapping_mul(37) ^ 0xa5
    }
}

impl Pattern for u64 {
    fn at(place: usize) -> Self {
        (place as u64 + 1).wrapping_mul(0x9e37_79b9_7f4a_7c15)
    }
}

/// A buffer with its guards.
#[derive(Debug, PartialEq)]
struct Guarded<T>(Vec<T>);

impl<T: Pattern + PartialEq + std::fmt::Debug> Guarded<T> {
    fn new(room: usize) -> Self {
        Self((0..room + 2 * GUARD).map(T::at).collect())
    }

    fn slice(&mut self) -> &mut [T] {
        let end = self.0.len() - GUARD;
        &mut self.0[GUARD..end]
    }

    /// The first place, counted from the buffer's own first, at which it is not as another, and what both have there.
    fn difference_from(&self, other: &Self) -> Option<String> {
        let place = (0..self.0.len().max(other.0.len())).find(|&place| self.0.get(place) != other.0.get(place))?;
        let (this, that) = (self.0.get(place), other.0.get(place));
        Some(format!("{this:?} for {that:?} at {}", place as isize - GUARD as isize))
    }

    fn as_it_was(&self) -> bool {
        self.0.iter().enumerate().all(|(place, item)| *item == T::at(place))
    }
}

/// All buffers that a question lends; two of them are equal if they are so in every element, the guards too.
#[derive(Debug, Default, PartialEq)]
pub struct Lent {
    bytes: Option<Guarded<u8>>,
    numbers: Option<Guarded<u64>>,
}

impl Lent {
    /// A buffer of so many bytes.
    pub fn bytes(&mut self, room: usize) -> &mut [u8] {
        self.bytes.insert(Guarded::new(room)).slice()
    }

    /// A buffer of so many numbers.
    pub fn numbers(&mut self, room: usize) -> &mut [u64] {
        self.numbers.insert(Guarded::new(room)).slice()
    }

    /// One of each.
    pub fn both(&mut self, bytes: usize, numbers: usize) -> (&mut [u8], &mut [u64]) {
        let bytes = self.bytes.insert(Guarded::new(bytes)).slice();
        (bytes, self.numbers.insert(Guarded::new(numbers)).slice())
    }

    /// Where the bytes and the numbers are first not as others.
    pub fn difference_from(&self, other: &Self) -> [Option<String>; 2] {
        let bytes = self.bytes.as_ref().zip(other.bytes.as_ref()).and_then(|(this, that)| this.difference_from(that));
        let numbers = self.numbers.as_ref().zip(other.numbers.as_ref());
        [bytes, numbers.and_then(|(this, that)| this.difference_from(that))]
    }

    /// Whether nothing was written.
    pub fn as_it_was(&self) -> bool {
        self.bytes.as_ref().is_none_or(Guarded::as_it_was) && self.numbers.as_ref().is_none_or(Guarded::as_it_was)
    }
}

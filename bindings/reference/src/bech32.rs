//! Bech32 as in BIP 173: the alphabet, the checksum, and groups of five bits as numbers and bytes.

/// The characters of the groups 0 to 31.
pub const ALPHABET: [u8; 32] = *b"qpzry9x8gf2tvdw0s3jn54khce6mua7l";

/// The constants of the checksum's generator.
pub const GENERATOR: [u32; 5] = [0x3b6a_57b2, 0x2650_8e6d, 0x1ea1_19fa, 0x3d42_33dd, 0x2a14_62b3];

/// The groups of a checksum.
pub const CHECKSUM_GROUPS: usize = 6;

/// What [`group_of`] gives for a character outside the alphabet.
pub const NO_GROUP: u8 = 32;

/// Groups by character, in either case.
const GROUPS: [u8; 256] = {
    let mut groups = [NO_GROUP; 256];
    let mut group = 0;
    while group < ALPHABET.len() {
        let character = ALPHABET[group];
        groups[character as usize] = group as u8;
        groups[character.to_ascii_uppercase() as usize] = group as u8;
        group += 1;
    }
    groups
};

/// The generator's constants joined for each value of the five bits that are shifted out.
const JOINED: [u32; 32] = {
    let mut joined = [0; 32];
    let mut top = 0;
    while top < joined.len() {
        let mut bit = 0;
        while bit < GENERATOR.len() {
            if top >> bit & 1 == 1 {
                joined[top] ^= GENERATOR[bit];
            }
            bit += 1;
        }
        top += 1;
    }
    joined
};

/// The group of a character, or [`NO_GROUP`].
#[inline]
pub fn group_of(character: u8) -> u8 {
    GROUPS[usize::from(character)]
}

/// The lower-case character of a group, by its low five bits.
#[inline]
pub fn character_of(group: u8) -> u8 {
    ALPHABET[usize::from(group & 31)]
}

/// A checksum that takes in one group after the other.
#[derive(Clone, Copy)]
pub struct Checksum(u32);

impl Checksum {
    /// The checksum of a human readable part: high bits, a zero and low bits of its lower-case characters.
    pub fn of_readable_part(readable: &[u8]) -> Self {
        let lower = readable.iter().map(u8::to_ascii_lowercase);
        let high = lower.clone().map(|character| character >> 5);
        let low = lower.map(|character| character & 31);
        Self(1).with(high.chain([0]).chain(low))
    }

    /// The checksum with further groups.
    pub fn with(self, groups: impl IntoIterator<Item = u8>) -> Self {
        Self(groups.into_iter().fold(self.0, |sum, group| {
            (sum & 0x1ff_ffff) << 5 ^ u32::from(group & 31) ^ JOINED[(sum >> 25 & 31) as usize]
        }))
    }

    /// Whether the checksum holds: its final value is 1.
    pub fn holds(self) -> bool {
        self.0 == 1
    }

    /// The six groups that make the checksum hold.
    pub fn closing(self) -> [u8; CHECKSUM_GROUPS] {
        let sum = self.with([0; CHECKSUM_GROUPS]).0 ^ 1;
        [25, 20, 15, 10, 5, 0].map(|shift| (sum >> shift & 31) as u8)
    }
}

/// The number that groups spell, the highest first; of more than 12 the low 64 bits.
pub fn number(groups: &[u8]) -> u64 {
    groups.iter().fold(0, |number, &group| number << 5 | u64::from(group & 31))
}

/// How many whole bytes so many groups hold.
pub const fn whole_bytes(groups: usize) -> usize {
    groups / 8 * 5 + groups % 8 * 5 / 8
}

/// How many groups it takes to hold so many bytes.
pub const fn groups_for(bytes: usize) -> usize {
    bytes / 5 * 8 + (bytes % 5 * 8).div_ceil(5)
}

/// Puts the whole bytes of the groups into an output of just that length; eight groups are five bytes.
pub(crate) fn put_bytes(groups: &[u8], out: &mut [u8]) {
    for (groups, out) in groups.chunks(8).zip(out.chunks_mut(5)) {
        let bits = number(groups) << (40 - 5 * groups.len());
        out.copy_from_slice(&bits.to_be_bytes()[3..3 + out.len()]);
    }
}

/// Puts the groups of the bytes, the last one filled up with zero bits, into an output of just their count.
pub(crate) fn put_groups(bytes: &[u8], out: &mut [u8]) {
    for (bytes, out) in bytes.chunks(5).zip(out.chunks_mut(8)) {
        let mut five = [0; 8];
        five[3..3 + bytes.len()].copy_from_slice(bytes);
        put_number(u64::from_be_bytes(five) >> (5 * (8 - out.len())), out);
    }
}

/// Puts a number's low groups into an output, the highest first.
pub(crate) fn put_number(number: u64, out: &mut [u8]) {
    let mut left = number;
    for group in out.iter_mut().rev() {
        *group = (left & 31) as u8;
        left >>= 5;
    }
}

#[cfg(test)]
mod tests {
    use super::*;

    #[test]
    fn valid_strings_of_bip_173() {
        let strings = [
            "A12UEL5L",
            "a12uel5l",
            "an83characterlonghumanreadablepartthatcontainsthenumber1andtheexcludedcharactersbio1tt5tgs",
            "abcdef1qpzry9x8gf2tvdw0s3jn54khce6mua7lmqqqxw",
            "11qqqqqqqqqqqqqqqqqqqqqqqqqqqqqqqqqqqqqqqqqqqqqqqqqqqqqqqqqqqqqqqqqqqqqqqqqqqqqqqqqqc8247j",
            "split1checkupstagehandshakeupstreamerranterredcaperred2y9e3w",
            "?1ezyfcl",
        ];
        for string in strings {
            let (readable, data) = string.rsplit_once('1').unwrap();
            let start = Checksum::of_readable_part(readable.as_bytes());
            let groups: Vec<u8> = data.bytes().map(group_of).collect();
            assert!(start.with(groups.iter().copied()).holds(), "{string}");
            let (content, closing) = groups.split_at(groups.len() - CHECKSUM_GROUPS);
            assert_eq!(start.with(content.iter().copied()).closing(), closing);
            for place in 0..groups.len() {
                let mut changed = groups.clone();
                changed[place] ^= 1;
                assert!(!start.with(changed).holds(), "{string} at {place}");
            }
        }
    }

    #[test]
    fn the_alphabet_both_ways() {
        for group in 0..32 {
            assert_eq!(group_of(character_of(group)), group);
            assert_eq!(group_of(character_of(group).to_ascii_uppercase()), group);
        }
        assert!(b"1bioBIO!{\x80\xff".iter().all(|&character| group_of(character) == NO_GROUP));
    }

    #[test]
    fn bytes_and_groups() {
        let bytes: Vec<u8> = (0..40_u8).map(|i| i.wrapping_mul(37)).collect();
        for count in 0..=bytes.len() {
            let mut groups = vec![0; groups_for(count)];
            put_groups(&bytes[..count], &mut groups);
            assert_eq!(groups.len(), (count * 8).div_ceil(5));
            assert_eq!(whole_bytes(groups.len()), count);
            let mut back = vec![0; count];
            put_bytes(&groups, &mut back);
            assert_eq!(back, bytes[..count]);
        }
        let mut groups = [0; 2];
        put_groups(&[0xff], &mut groups);
        assert_eq!(groups, [31, 28]);
    }
}

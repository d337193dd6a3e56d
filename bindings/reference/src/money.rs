//! Money: a type for each unit, and an amount's text.

use crate::refusal::{ensure, AMOUNT, NOT_WHOLE_SATOSHIS};
use crate::Refusal;

/// A count of millisatoshis.
#[derive(Clone, Copy, Debug, PartialEq, Eq, PartialOrd, Ord)]
pub struct Msat(pub u64);

/// A count of satoshis.
#[derive(Clone, Copy, Debug, PartialEq, Eq, PartialOrd, Ord)]
pub struct Sat(pub u64);

/// The highest amount of an invoice: 21 million bitcoin.
pub const HIGHEST: Msat = Msat(2_100_000_000_000_000_000);

/// The most digits of an amount.
pub const MOST_DIGITS: usize = 19;

/// The same amount in satoshis, if it is a whole number of them.
pub fn to_sat(amount: Msat) -> Result<Sat, Refusal> {
    ensure(amount.0.is_multiple_of(1_000), Refusal::bare(NOT_WHOLE_SATOSHIS))?;
    Ok(Sat(amount.0 / 1_000))
}

/// Reads an amount's characters, digits and at most one letter in either case.
pub fn read_amount(text: &[u8]) -> Result<Msat, Refusal> {
    amount(text).filter(|amount| *amount <= HIGHEST).ok_or(Refusal::bare(AMOUNT))
}

fn amount(text: &[u8]) -> Option<Msat> {
    let count = text.iter().take_while(|c| c.is_ascii_digit()).count();
    let (digits, letter) = text.split_at(count);
    if !(1..=MOST_DIGITS).contains(&count) || digits[0] == b'0' {
        return None;
    }
    // 19 digits are below 2^64.
    let number = digits.iter().fold(0_u64, |number, digit| number * 10 + u64::from(digit - b'0'));
    let msat = match letter {
        [] => number.checked_mul(100_000_000_000),
        b"m" | b"M" => number.checked_mul(100_000_000),
        b"u" | b"U" => number.checked_mul(100_000),
        b"n" | b"N" => number.checked_mul(100),
        // A tenth of a millisatoshi is no amount: the last digit must be 0.
        b"p" | b"P" => number.is_multiple_of(10).then_some(number / 10),
        _ => None,
    };
    msat.map(Msat)
}

#[cfg(test)]
mod tests {
    use super::*;

    #[test]
    fn amounts() {
        let good: [(&str, u64); 10] = [
            ("2500u", 250_000_000),
            ("20m", 2_000_000_000),
            ("20M", 2_000_000_000),
            ("1", 100_000_000_000),
            ("21000000", HIGHEST.0),
            ("21000000000m", HIGHEST.0),
            ("1n", 100),
            ("10p", 1),
            ("9999999999999999990p", 999_999_999_999_999_999),
            ("9n", 900),
        ];
        for (text, msat) in good {
            assert_eq!(read_amount(text.as_bytes()), Ok(Msat(msat)), "{text}");
        }
        let bad =
            ["", "0", "01", "m", "5x", "5mm", "5m5", "-5", "5 ", "21000001", "21000000001m", "9999999999999999999"];
        for text in bad.into_iter().chain(["10000000000000000000p", "9999999999999999999n", "9999999999999999999p"]) {
            assert_eq!(read_amount(text.as_bytes()), Err(Refusal::bare(37)), "{text}");
        }
    }

    #[test]
    fn tenths() {
        for number in 1..=99_u64 {
            let expected = if number % 10 == 0 { Ok(Msat(number / 10)) } else { Err(Refusal::bare(37)) };
            for letter in ["p", "P"] {
                let text = format!("{number}{letter}");
                assert_eq!(read_amount(text.as_bytes()), expected, "{text}");
            }
        }
    }

    #[test]
    fn whole_satoshis() {
        assert_eq!(to_sat(Msat(0)), Ok(Sat(0)));
        assert_eq!(to_sat(Msat(5_000)), Ok(Sat(5)));
        assert_eq!(to_sat(Msat(5_001)), Err(Refusal::bare(43)));
        assert_eq!(to_sat(Msat(u64::MAX - 615)), Ok(Sat(18_446_744_073_709_551)));
    }
}

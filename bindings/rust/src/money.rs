//! The units of money.
use crate::raw;
use crate::Refusal;

/// A count of millisatoshis.
#[derive(Clone, Copy, Debug, PartialEq, Eq, PartialOrd, Ord, Hash)]
pub struct Msat(pub u64);

/// A count of satoshis.
#[derive(Clone, Copy, Debug, PartialEq, Eq, PartialOrd, Ord, Hash)]
pub struct Sat(pub u64);

/// Turns millisatoshis into satoshis. Refused: 43 for a count that does not divide by 1,000.
///
/// ```
/// use tockplover::money::{to_sat, Msat, Sat};
/// assert_eq!(to_sat(Msat(250_000_000)), Ok(Sat(250_000)));
/// assert_eq!(to_sat(Msat(1)).unwrap_err().number, tockplover::numbers::NOT_WHOLE_SATOSHIS);
/// ```
pub fn to_sat(amount: Msat) -> Result<Sat, Refusal> {
    let answer = raw::money_to_sat(amount.0);
    raw::accepted(answer.refusal)?;
    Ok(Sat(answer.value))
}

//! The till profile: six rules over an accepted invoice, and which of them it breaks.

use crate::invoice::{self, usable, Invoice, C, D, H, N, P, X};
use crate::money::{Msat, MOST_DIGITS};
use crate::Refusal;

/// Exactly one usable p.
pub const PAYMENT_HASH: u8 = 1;
/// Exactly one of d and usable h together.
pub const DESCRIPTION: u8 = 2;
/// At most one each of usable x, c and n.
pub const AT_MOST_ONCE: u8 = 3;
/// Zero padding bits and no spare group in usable p, h, n and r and in d.
pub const PADDING: u8 = 4;
/// Usable x and c without leading zero groups.
pub const LEADING_ZEROS: u8 = 5;
/// The amount so spelled that no allowed spelling of it has fewer characters.
pub const AMOUNT: u8 = 6;

/// How many rules there are.
pub const RULES: usize = 6;

/// The rules that an invoice breaks.
#[derive(Clone, Copy, Debug, Default, PartialEq, Eq)]
pub struct Profile {
    /// How many there are.
    pub count: usize,
    /// Their numbers, rising, at the front; 0 behind them.
    pub rules: [u8; RULES],
}

impl Profile {
    /// Puts a rule behind those below it.
    pub(crate) fn add(&mut self, rule: u8) {
        self.rules[self.count] = rule;
        self.count += 1;
    }
}

/// The rules that an accepted invoice breaks, or the refusal that its reader gives.
pub fn profile(text: &[u8]) -> Result<Profile, Refusal> {
    let mut seen = Seen::default();
    let (invoice, _) = invoice::judged_with(text, |kind, content| seen.add(kind, content))?;
    let mut profile = Profile::default();
    let broken = [
        (PAYMENT_HASH, seen.payments != 1),
        (DESCRIPTION, seen.descriptions != 1),
        (AT_MOST_ONCE, seen.expiries > 1 || seen.deltas > 1 || seen.payees > 1),
        (PADDING, seen.padding),
        (LEADING_ZEROS, seen.zeros),
        (AMOUNT, !is_shortest(&invoice)),
    ];
    for (rule, _) in broken.into_iter().filter(|(_, broken)| *broken) {
        profile.add(rule);
    }
    Ok(profile)
}

/// What the rules ask of the fields: how many there are of each kind, and what any of them has that it should not.
#[derive(Default)]
struct Seen {
    payments: usize,
    descriptions: usize,
    expiries: usize,
    deltas: usize,
    payees: usize,
    padding: bool,
    zeros: bool,
}

impl Seen {
    fn add(&mut self, kind: u8, content: &[u8]) {
        // A d is neither usable nor unusable: every one counts.
        if kind != D && !usable(kind, content.len()) {
            return;
        }
        match kind {
            P => self.payments += 1,
            D | H => self.descriptions += 1,
            N => self.payees += 1,
            X => self.expiries += 1,
            C => self.deltas += 1,
            _ => {}
        }
        match kind {
            X | C => self.zeros |= content.first() == Some(&0),
            _ => self.padding |= has_padding(content),
        }
    }
}

/// Whether the bits behind the last whole byte fill a group, or are not zero in the last one.
fn has_padding(content: &[u8]) -> bool {
    let left = 5 * content.len() % 8;
    left >= 5 || content.last().is_some_and(|last| last & ((1 << left) - 1) != 0)
}

/// Whether the amount has the fewest characters that spell it; an invoice without one has none to spare.
fn is_shortest(invoice: &Invoice) -> bool {
    invoice.msat.is_none_or(|msat| invoice.amount.length == shortest(msat))
}

/// The fewest characters that spell an amount: the digits of its number in each unit that it is a multiple of, and the
/// unit's letter. An amount that has a spelling is at least 1.
fn shortest(Msat(msat): Msat) -> usize {
    let digits = |number: u64| number.ilog10() as usize + 1;
    let units = [(100_000_000_000, 0), (100_000_000, 1), (100_000, 1), (100, 1)];
    let whole = units.iter().filter(|(unit, _)| msat % unit == 0).map(|(unit, letter)| digits(msat / unit) + letter);
    // In p there is a digit more than in millisatoshi.
    let tenths = Some(digits(msat) + 1).filter(|&digits| digits <= MOST_DIGITS).map(|digits| digits + 1);
    whole.chain(tenths).min().unwrap_or(0)
}

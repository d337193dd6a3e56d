//! The till profile: six rules that a till's own invoices have to keep, and which of them an invoice breaks.
use core::fmt;

use crate::raw;
use crate::words::RULES;
use crate::Refusal;

/// A rule over an invoice that is read. A field that is not usable is in no rule; every d is.
#[derive(Clone, Copy, Debug, PartialEq, Eq, PartialOrd, Ord, Hash)]
pub enum Rule {
    /// Exactly one usable p.
    PaymentHash = 1,
    /// Exactly one of d and usable h together.
    Description = 2,
    /// At most one each of usable x, c and n.
    AtMostOnce = 3,
    /// Zero padding bits and no spare group in usable p, h, n and r and in d.
    Padding = 4,
    /// Usable x and c without leading zero groups.
    LeadingZeros = 5,
    /// The amount so spelled that no allowed spelling of it has fewer characters.
    Amount = 6,
}

impl Rule {
    /// All rules, in their order.
    pub const ALL: [Rule; 6] = [
        Rule::PaymentHash,
        Rule::Description,
        Rule::AtMostOnce,
        Rule::Padding,
        Rule::LeadingZeros,
        Rule::Amount,
    ];

    /// Its number, 1 to 6.
    pub fn number(self) -> u8 {
        self as u8
    }

    /// What is wrong where it is broken, in words that begin in lower case and end without a full stop.
    ///
    /// ```
    /// assert_eq!(tockplover::till::Rule::Amount.meaning(), "the amount can be spelled in fewer characters");
    /// ```
    pub fn meaning(self) -> &'static str {
        self.words().0
    }

    /// What to do where it is broken, in words that begin in lower case and end without a full stop.
    pub fn advice(self) -> &'static str {
        self.words().1
    }

    /// Its meaning and its advice.
    fn words(self) -> (&'static str, &'static str) {
        let (_, meaning, advice) = RULES[usize::from(self.number()) - 1];
        (meaning, advice)
    }

    /// The rule of a number, where there is one.
    fn of_number(number: u8) -> Option<Self> {
        Rule::ALL.get(usize::from(number).checked_sub(1)?).copied()
    }
}

/// Written as `rule 6: the amount can be spelled in fewer characters`.
impl fmt::Display for Rule {
    fn fmt(&self, f: &mut fmt::Formatter<'_>) -> fmt::Result {
        write!(f, "rule {}: {}", self.number(), self.meaning())
    }
}

/// The rules that an invoice breaks, each once.
#[derive(Clone, Copy, Debug, PartialEq, Eq)]
pub struct Broken {
    count: usize,
    /// Their numbers, rising, at the front; 0 behind them.
    numbers: [u8; 6],
}

impl Broken {
    /// Whether there is none, so that the invoice is clean.
    pub fn is_clean(&self) -> bool {
        self.count == 0
    }

    /// Whether a rule is among them.
    pub fn contains(&self, rule: Rule) -> bool {
        self.numbers.contains(&rule.number())
    }

    /// The rules, in their order.
    pub fn rules(&self) -> impl Iterator<Item = Rule> {
        self.numbers.into_iter().take(self.count).filter_map(Rule::of_number)
    }
}

/// Which rules of the till profile an invoice in upper or lower case breaks. Every field of a kind is judged, not only the first that counts.
/// Refused: 30 to 40, as [`invoice::read`](crate::invoice::read), which asks for none of the rules; never 12.
///
/// ```
/// use tockplover::till::{self, Rule};
/// let coffee = b"lnbc2500u1pvjluezpp5qqqsyqcyq5rqwzqfqqqsyqcyq5rqwzqfqqqsyqcyq5rqwzqfqypqdq5xysxxatsyp3k7enxv4jsxqzpuaztrnwngzn3kdzw\
/// 5hydlzf03qdgm2hdq27cqv3agm2awhz5se903vruatfhq77w3ls4evs3ch9zw97j25emudupq63nyw24cg27h2rspfj9srp";
/// assert!(till::profile(coffee)?.is_clean());
///
/// // The same amount in another unit, and no description.
/// let mut hash = [0; 55];
/// let fields = tockplover::invoice::field_from_bytes(1, &[7; 32], &mut hash)?;
/// let mut out = [0; 200];
/// let text = tockplover::invoice::write(tockplover::invoice::Prefix::Lnbc, b"2500000n", 0, fields, &[0; 104], &mut out)?;
/// let broken = till::profile(text)?;
/// assert!(broken.rules().eq([Rule::Description, Rule::Amount]));
/// assert_eq!(Rule::Amount.to_string(), "rule 6: the amount can be spelled in fewer characters");
/// # Ok::<(), tockplover::Refusal>(())
/// ```
pub fn profile(text: &[u8]) -> Result<Broken, Refusal> {
    let answer = raw::till_profile(text);
    raw::accepted(answer.refusal)?;
    Ok(Broken {
        count: answer.count,
        numbers: answer.rules,
    })
}

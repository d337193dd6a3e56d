//! All sides asked the same, and a difference told with the smallest input found.

use std::collections::BTreeMap;
use std::panic::{catch_unwind, AssertUnwindSafe};

use tockplover_reference::gen::Random;

use crate::questions::{Answer, Mark, Question};
use crate::Lent;

/// The most inputs that are tried in search of a smaller one.
const MOST_TRIED: usize = 50_000;

/// A run of cases of one question.
pub struct Run {
    /// The question, and what the inputs are where there is more than one run of it.
    pub name: &'static str,
    /// Where the inputs come from.
    pub seed: u64,
    /// How many there are.
    pub cases: u64,
    /// The words of accepted answers that come, and no others.
    pub words: &'static [&'static str],
    /// The numbers of refusals that come, and no others.
    pub numbers: &'static [u8],
}

/// What a side answered and left in the lent buffers; nothing where it panicked.
type Told<A> = Option<(A, Lent)>;

/// What all sides told; the crate's is `None` where it cannot be asked.
struct Answers<A> {
    reference: Told<A>,
    exported: Told<A>,
    proved: Option<Told<A>>,
}

impl<A: Answer> Answers<A> {
    fn of<Q: Question<Answer = A>>(question: &Q) -> Self {
        let ask = |side: &dyn Fn() -> (A, Lent)| catch_unwind(AssertUnwindSafe(side)).ok();
        let proved = catch_unwind(AssertUnwindSafe(|| question.proved()));
        Self {
            reference: ask(&|| question.reference()),
            exported: ask(&|| question.exported()),
            proved: match proved {
                Ok(None) => None,
                Ok(told) => Some(told),
                Err(_) => Some(None),
            },
        }
    }

    /// The answer's mark, if all sides told the same and an answer without output has written nothing.
    fn agreed(&self) -> Option<Mark> {
        let (answer, lent) = self.reference.as_ref()?;
        let same = self.exported == self.reference && self.proved.as_ref().is_none_or(|told| *told == self.reference);
        (same && (!answer.leaves_all() || lent.as_it_was())).then(|| answer.mark())
    }
}

/// A smaller input that is wrong too.
fn smallest<Q: Question>(question: &Q) -> Q {
    let mut question = question.clone();
    let mut left = MOST_TRIED;
    let mut wrong = |candidate: &Q| {
        left = left.saturating_sub(1);
        left > 0 && Answers::of(candidate).agreed().is_none()
    };
    while question.shrink(&mut wrong) {}
    question
}

/// What a side told, for a reader: its answer, and where its buffers are first not as the reference's.
fn shown<A: Answer>(told: &Told<A>, reference: &Told<A>) -> String {
    let Some((answer, lent)) = told else {
        return "panicked".to_string();
    };
    let mut text = format!("{answer:?}");
    let differences = reference.as_ref().map(|(_, other)| lent.difference_from(other));
    for difference in differences.into_iter().flatten().flatten() {
        text += &format!(", lent {difference}");
    }
    text
}

/// Tells a difference with the smallest input found.
fn tell<Q: Question>(run: &Run, case: u64, question: &Q) {
    let question = smallest(question);
    println!("{}: the sides differ, seed {}, case {case}; smallest input found, in hex:", run.name, run.seed);
    for (part, hex) in question.hex() {
        println!("    {part}: {hex}");
    }
    let answers = Answers::of(&question);
    let reference = &answers.reference;
    println!("    reference: {}", shown(reference, reference));
    println!("    exported:  {}", shown(&answers.exported, reference));
    let by_crate = answers.proved.as_ref().map(|told| shown(told, reference));
    println!("    crate:     {}", by_crate.unwrap_or("not asked".to_string()));
}

/// Asks the cases of a run up to the first difference, prints what came, and says whether all is as it should be.
pub fn check<Q: Question>(run: &Run, make: impl Fn(u64, &mut Random) -> Q) -> bool {
    let mut marks = BTreeMap::<Mark, u64>::new();
    let mut by_crate = 0;
    for case in 0..run.cases {
        let question = make(case, &mut Random::new(run.seed << 32 | case));
        let answers = Answers::of(&question);
        let Some(mark) = answers.agreed() else {
            tell(run, case, &question);
            return false;
        };
        *marks.entry(mark).or_default() += 1;
        by_crate += u64::from(answers.proved.is_some());
    }
    let counts = marks.iter().map(|(&mark, count)| match mark {
        (word, 0) => format!("{word} {count}"),
        (word, number) => format!("{word} {number}: {count}"),
    });
    let asked = if by_crate < run.cases { format!(" ({by_crate} by the crate)") } else { String::new() };
    println!("{}: {} cases{asked}, {}", run.name, run.cases, counts.collect::<Vec<_>>().join(", "));
    all_came(run, &marks)
}

/// Whether every answer came that should, and no other.
fn all_came(run: &Run, marks: &BTreeMap<Mark, u64>) -> bool {
    let words = marks.keys().filter(|mark| mark.1 == 0).map(|mark| mark.0);
    let mut numbers: Vec<u8> = marks.keys().map(|mark| mark.1).filter(|&number| number > 0).collect();
    numbers.sort_unstable();
    numbers.dedup();
    let mut expected = run.words.to_vec();
    expected.sort_unstable();
    let as_expected = words.eq(expected) && numbers == run.numbers;
    if !as_expected {
        println!("{}: expected {:?} and the refusals {:?}", run.name, run.words, run.numbers);
    }
    as_expected
}

#[cfg(test)]
mod tests {
    use super::*;
    use crate::shrink::Shrink;
    use tockplover_reference::Refusal;

    /// A question that the proved side answers wrongly where a byte is above 9 behind another.
    #[derive(Clone)]
    struct Wrong(Vec<u8>);

    impl Question for Wrong {
        type Answer = Result<usize, Refusal>;

        fn reference(&self) -> (Self::Answer, Lent) {
            (Ok(self.0.len()), Lent::default())
        }

        fn exported(&self) -> (Self::Answer, Lent) {
            let wrong = self.0.iter().skip(1).any(|&byte| byte > 9);
            (Ok(self.0.len() + usize::from(wrong)), Lent::default())
        }

        fn proved(&self) -> Option<(Self::Answer, Lent)> {
            None
        }

        fn shrink(&mut self, wrong: &mut dyn FnMut(&Self) -> bool) -> bool {
            self.0.shrink(&mut |bytes| wrong(&Self(bytes.clone())))
        }

        fn hex(&self) -> Vec<(&'static str, String)> {
            vec![("bytes", self.0.hex())]
        }
    }

    #[test]
    fn a_difference_is_found_and_made_small() {
        let run = Run { name: "wrong", seed: 1, cases: 100, words: &["accepted"], numbers: &[] };
        assert!(!check(&run, |case, random| Wrong(random.bytes(case as usize))));
        assert!(check(&run, |case, _| Wrong(vec![9; case as usize])));
        let Wrong(bytes) = smallest(&Wrong((0..200).collect()));
        assert!(bytes.len() == 2 && bytes[0] == 0 && (10..20).contains(&bytes[1]), "{bytes:?}");
    }

    #[test]
    fn an_answer_that_should_come_is_missed() {
        let run = Run { name: "missing", seed: 1, cases: 9, words: &["accepted"], numbers: &[12] };
        assert!(!check(&run, |_, _| Wrong(Vec::new())));
    }

    #[test]
    fn a_buffer_is_compared_whole() {
        let (mut a, mut b) = (Lent::default(), Lent::default());
        a.bytes(3)[2] = 1;
        b.bytes(3)[2] = 1;
        assert!(a == b && !a.as_it_was());
        b.bytes(4);
        assert!(a != b && b.as_it_was());
    }
}

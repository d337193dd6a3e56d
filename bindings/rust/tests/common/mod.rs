//! What the tests share.
use tockplover::Refusal;

/// The number, the place and the type of an answer that has to be refused, though nothing is missing.
pub fn refused<T>(answer: Result<T, Refusal>) -> (u8, usize, u64) {
    let refusal = answer.err().expect("the answer is a refusal");
    assert_eq!(refusal.missing, 0);
    (refusal.number, refusal.place, refusal.kind)
}

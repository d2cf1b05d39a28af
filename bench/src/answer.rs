//! Answers as the library gives them: one number, the case times 2^32 plus a value.

use crate::plain::Refusal;

const CASE: u64 = 1 << 32;
const NONE: u64 = CASE;
const REFUSED: u64 = 3 * CASE;

/// Opened, with how many words are due; or refused.
pub fn opened(answer: Result<usize, Refusal>) -> u64 {
    answer.map_or_else(refused, |due| due as u64)
}

/// Separated or none; or refused.
pub fn found(answer: Result<bool, Refusal>) -> u64 {
    answer.map_or_else(refused, |separates| if separates { 0 } else { NONE })
}

fn refused(refusal: Refusal) -> u64 {
    REFUSED + refusal as u64
}

/// The value of an answer whose case is 0.
pub fn value(answer: u64) -> Option<usize> {
    usize::try_from(answer).ok().filter(|_| answer < CASE)
}

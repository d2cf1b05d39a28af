//! Sets of features in 64-bit words.

pub const WORD_BITS: usize = 64;

pub fn has(words: &[u64], feature: usize) -> bool {
    words[feature / WORD_BITS] >> (feature % WORD_BITS) & 1 == 1
}

pub fn toggle(words: &mut [u64], feature: usize) {
    words[feature / WORD_BITS] ^= 1 << (feature % WORD_BITS);
}

pub fn include(words: &mut [u64], feature: usize) {
    words[feature / WORD_BITS] |= 1 << (feature % WORD_BITS);
}

/// Adds a set to another: what exactly one of the two has.
pub fn add(into: &mut [u64], from: &[u64]) {
    for (word, other) in into.iter_mut().zip(from) {
        *word ^= other;
    }
}

pub fn least(words: &[u64]) -> Option<usize> {
    let place = words.iter().position(|&word| word != 0)?;
    Some(place * WORD_BITS + words[place].trailing_zeros() as usize)
}

/// The members, from the least on.
pub fn members(words: &[u64]) -> impl Iterator<Item = usize> + '_ {
    words.iter().enumerate().flat_map(|(place, &word)| {
        let mut rest = word;
        std::iter::from_fn(move || {
            if rest == 0 {
                return None;
            }
            let bit = rest.trailing_zeros() as usize;
            rest &= rest - 1;
            Some(place * WORD_BITS + bit)
        })
    })
}

/// The least member from `start` on that two sets of as many words share.
pub fn next_shared(one: &[u64], other: &[u64], start: usize) -> Option<usize> {
    let first = start / WORD_BITS;
    let rest = (one.get(first)? & other[first]) >> (start % WORD_BITS);
    if rest != 0 {
        return Some(start + rest.trailing_zeros() as usize);
    }
    let words = one.iter().zip(other).map(|(one, other)| one & other);
    let (place, word) = words
        .enumerate()
        .skip(first + 1)
        .find(|&(_, word)| word != 0)?;
    Some(place * WORD_BITS + word.trailing_zeros() as usize)
}

/// Whether every member is below `end`, where the words reach no further than the word of `end`.
pub fn is_below(words: &[u64], end: usize) -> bool {
    words
        .get(end / WORD_BITS)
        .is_none_or(|word| word >> (end % WORD_BITS) == 0)
}

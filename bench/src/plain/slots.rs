//! A slot area: slot i is the forced set with least member i and no other slot's index, or empty.

use super::features::MOST_FEATURES;
use super::set::{self, WORD_BITS};

pub const MOST_WORDS: usize = MOST_FEATURES / WORD_BITS;

/// Slots to read, each of so many words.
#[derive(Clone, Copy)]
pub struct Slots<'a> {
    words: &'a [u64],
    width: usize,
}

impl<'a> Slots<'a> {
    pub fn new(words: &'a [u64], width: usize) -> Slots<'a> {
        Slots { words, width }
    }

    fn slot(&self, index: usize) -> &'a [u64] {
        &self.words[index * self.width..][..self.width]
    }

    fn each(&self) -> impl Iterator<Item = (usize, &'a [u64])> {
        self.words.chunks_exact(self.width).enumerate()
    }

    /// Adds to a row each slot whose index it has: only its own members can be such indices.
    pub fn reduce(&self, row: &mut [u64]) {
        let mut own = [0; MOST_WORDS];
        let own = &mut own[..row.len()];
        own.copy_from_slice(row);
        for index in set::members(own) {
            let slot = self.slot(index);
            if set::has(slot, index) {
                let first = index / WORD_BITS;
                set::add(&mut row[first..], &slot[first..]);
            }
        }
    }

    /// The index and each slot that has it.
    pub fn witness(&self, index: usize, weights: &mut [u64]) {
        weights.fill(0);
        set::toggle(weights, index);
        for (place, slot) in self.each().take(index + 1) {
            if set::has(slot, index) {
                set::toggle(weights, place);
            }
        }
    }

    /// Whether the slots have the reduced shape, with no bit at `count` or beyond.
    pub fn are_reduced(&self, count: usize) -> bool {
        let mut full = vec![0; self.width];
        for (index, slot) in self.each() {
            if set::has(slot, index) {
                set::toggle(&mut full, index);
            }
        }
        self.each()
            .all(|(index, slot)| is_shaped(slot, index, count, &full))
    }
}

/// Whether a slot is empty, or has its index as least member, no other index of `full` and no bit at `count` or beyond.
fn is_shaped(slot: &[u64], index: usize, count: usize, full: &[u64]) -> bool {
    match set::least(slot) {
        None => true,
        Some(least) => {
            least == index && set::is_below(slot, count) && !shares_above(slot, full, index)
        }
    }
}

/// Whether two sets share a member above an index.
fn shares_above(words: &[u64], others: &[u64], index: usize) -> bool {
    let first = index / WORD_BITS;
    let shared = |place: usize| words[place] & others[place];
    let head = shared(first) >> (index % WORD_BITS) >> 1;
    (first + 1..words.len()).fold(head, |found, place| found | shared(place)) != 0
}

/// Inserts a row and clears at once: what is left of it, if anything, becomes the slot of its least member. The row is used up.
/// It is not inlined, so that its loops have the registers for themselves.
#[inline(never)]
pub fn insert(words: &mut [u64], row: &mut [u64]) {
    let width = row.len();
    Slots::new(words, width).reduce(row);
    if let Some(index) = set::least(row) {
        put(words, index, row);
    }
}

/// A reduced row becomes the slot of its least member, which is taken out of the slots below.
fn put(words: &mut [u64], index: usize, row: &[u64]) {
    let (below, from) = words.split_at_mut(index * row.len());
    let first = index / WORD_BITS;
    for slot in below.chunks_exact_mut(row.len()) {
        if set::has(slot, index) {
            set::add(&mut slot[first..], &row[first..]);
        }
    }
    from[..row.len()].copy_from_slice(row);
}

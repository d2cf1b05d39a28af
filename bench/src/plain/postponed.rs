//! A slot area while rows are inserted, with clearing postponed: a new slot's index is cleared from the pending slots alone, and from the settled ones
//! for many new slots together.

use super::observer::Observer;
use super::set::{self, WORD_BITS};
use super::slots::MOST_WORDS;
use std::ops::Range;

/// Slots are settled once one of so many features is the index of a pending slot.
pub const PENDING_SHARE: usize = 32;

/// Slots of so many words. One that is not empty is pending or settled: none has the index of another that is settled, and no pending one has the
/// index of another that is pending.
pub struct Postponed<'a, O> {
    words: &'a mut [u64],
    width: usize,
    /// The indices of the slots that are not empty.
    full: [u64; MOST_WORDS],
    /// The indices of the slots that are pending.
    pending: [u64; MOST_WORDS],
    /// Room for a slot while others are added to it.
    room: [u64; MOST_WORDS],
    observer: &'a mut O,
}

impl<'a, O: Observer> Postponed<'a, O> {
    /// Slots that are all empty.
    pub fn new(words: &'a mut [u64], width: usize, observer: &'a mut O) -> Postponed<'a, O> {
        Postponed {
            words,
            width,
            full: [0; MOST_WORDS],
            pending: [0; MOST_WORDS],
            room: [0; MOST_WORDS],
            observer,
        }
    }

    /// Inserts a row: what is left of it, if anything, becomes the slot of its least member. The row is used up.
    /// It is not inlined, so that its loops have the registers for themselves.
    #[inline(never)]
    pub fn insert(&mut self, row: &mut [u64]) {
        self.reduce(row);
        if let Some(index) = set::least(row) {
            self.clear(index, row);
            self.put(index, row);
        }
    }

    /// Adds to a row each slot whose index it has. One walk upwards is enough: a slot brings in nothing below its index.
    fn reduce(&mut self, row: &mut [u64]) {
        let full = &self.full[..self.width];
        let mut next = set::next_shared(row, full, 0);
        while let Some(index) = next {
            add_slot(row, self.words, index);
            self.observer.added_to_row();
            next = set::next_shared(row, full, index + 1);
        }
    }

    /// Adds a row to each pending slot that has the row's least member.
    fn clear(&mut self, index: usize, row: &[u64]) {
        let first = index / WORD_BITS;
        let pending = set::members(&self.pending[..=first]);
        for below in pending.take_while(|&below| below < index) {
            let slot = &mut self.words[place(below, self.width)];
            if set::has(slot, index) {
                set::add(&mut slot[first..], &row[first..]);
                self.observer.added_to_slot();
            }
        }
    }

    /// A row becomes the slot of its least member, and is pending.
    fn put(&mut self, index: usize, row: &[u64]) {
        self.words[place(index, self.width)].copy_from_slice(row);
        set::include(&mut self.full, index);
        set::include(&mut self.pending, index);
    }

    /// How many slots are pending.
    pub fn pending(&self) -> usize {
        set::members(&self.pending[..self.width]).count()
    }

    /// Clears the indices of the pending slots from the settled ones; then all are settled.
    pub fn settle(&mut self) {
        if set::least(&self.pending[..self.width]).is_none() {
            return;
        }
        let mut settled = self.full;
        set::add(&mut settled, &self.pending);
        for index in set::members(&settled[..self.width]) {
            self.settle_slot(index);
        }
        self.pending = [0; MOST_WORDS];
    }

    /// Adds to a settled slot each pending one whose index it has; none of them brings in another's.
    fn settle_slot(&mut self, index: usize) {
        let pending = &self.pending[..self.width];
        let slot = &self.words[place(index, self.width)];
        let mut next = set::next_shared(slot, pending, index);
        if next.is_none() {
            return;
        }
        let room = &mut self.room[..self.width];
        room.copy_from_slice(slot);
        while let Some(other) = next {
            add_slot(room, self.words, other);
            self.observer.added_to_slot();
            next = set::next_shared(slot, pending, other + 1);
        }
        self.words[place(index, self.width)].copy_from_slice(room);
    }
}

/// Where the words of a slot stand.
fn place(index: usize, width: usize) -> Range<usize> {
    let start = index * width;
    start..start + width
}

/// Adds a slot to a row, from the word of its index on: there is nothing before.
fn add_slot(row: &mut [u64], words: &[u64], index: usize) {
    let slot = &words[place(index, row.len())];
    let first = index / WORD_BITS;
    set::add(&mut row[first..], &slot[first..]);
}

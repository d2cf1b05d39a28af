//! A bay: rows and columns of slots, as it stands and as it is wanted.

mod lots;
mod ways;

use crate::numbers;
use std::ops::Range;

/// The label of the gap.
pub const GAP: usize = 0;

#[derive(Clone)]
pub struct Bay {
    pub rows: usize,
    pub columns: usize,
    pub start: Vec<usize>,
    /// None is a slot that the order does not name.
    pub goal: Vec<Option<usize>>,
    /// The letters that were typed for the labels 1, 2 and so on; none if numbers were typed.
    pub letters: Vec<char>,
}

impl Bay {
    pub fn slots(&self) -> usize {
        self.rows * self.columns
    }

    /// The shape as every answer names it.
    pub fn shape(&self) -> String {
        format!("{} by {}", self.rows, self.columns)
    }

    /// The bay file that the library's builder reads; the labels that are left fill the silent
    /// slots, in increasing order, the gap first.
    pub fn file(&self) -> Vec<u8> {
        let goal = self.filled(&self.left());
        let mut bytes = Vec::new();
        let labels = self.start.iter().chain(&goal);
        for &number in [self.rows, self.columns].iter().chain(labels) {
            numbers::put(&mut bytes, number);
        }
        bytes
    }

    /// Slots that share a side, each two once, the lower slot first.
    pub fn neighbours(&self) -> Vec<(usize, usize)> {
        let mut found = Vec::new();
        for slot in 0..self.slots() {
            // The last slot of a row has no neighbour to its right.
            if slot % self.columns + 1 < self.columns {
                found.push((slot, slot + 1));
            }
            if slot + self.columns < self.slots() {
                found.push((slot, slot + self.columns));
            }
        }
        found
    }

    /// The start in the form of a goal that names every slot.
    pub fn stands(&self) -> Vec<Option<usize>> {
        self.start.iter().copied().map(Some).collect()
    }

    /// The slots that the order does not name.
    pub fn silent(&self) -> Vec<usize> {
        let silent = |slot: &usize| self.goal[*slot].is_none();
        (0..self.goal.len()).filter(silent).collect()
    }

    pub fn is_full(&self) -> bool {
        self.silent().is_empty()
    }

    /// How much of the bay the order names.
    pub fn named(&self) -> String {
        let named = self.slots() - self.silent().len();
        format!("names {named} of {} slots", self.slots())
    }

    /// The shape, and how much of it the order names if that is not all.
    pub fn described(&self) -> String {
        let shape = self.shape();
        match self.is_full() {
            true => format!("a bay of {shape}"),
            false => format!("a bay of {shape}; the order {}", self.named()),
        }
    }

    /// For each slot 1 if the order names it, 0 if it is silent.
    pub fn marks(&self) -> Vec<u8> {
        let marks = self.goal.iter();
        marks.map(|label| u8::from(label.is_some())).collect()
    }

    /// Whether the bay as it stands has what the order names.
    pub fn is_met(&self) -> bool {
        let mut both = self.goal.iter().zip(&self.start);
        both.all(|(wanted, label)| wanted.is_none_or(|wanted| wanted == *label))
    }

    /// What stands for a slot that nobody knows: the library gives each slot one more value.
    pub fn unknown(&self) -> usize {
        self.slots()
    }

    /// What a slot can hold in the task that is asked about.
    pub fn labels(&self) -> Range<usize> {
        0..self.slots() + usize::from(!self.is_full())
    }

    /// The sizes of that task's variables.
    pub fn sizes(&self) -> Vec<usize> {
        vec![self.labels().len(); self.slots()]
    }

    /// The goal of that task: unknown where the order is silent.
    pub fn wanted(&self) -> Vec<usize> {
        let label = |label: &Option<usize>| label.unwrap_or(self.unknown());
        self.goal.iter().map(label).collect()
    }
}

#[cfg(test)]
mod tests {
    use super::*;

    fn bay(goal: &[Option<usize>]) -> Bay {
        Bay {
            rows: 2,
            columns: 2,
            start: vec![1, 2, 3, 0],
            goal: goal.to_vec(),
            letters: Vec::new(),
        }
    }

    #[test]
    fn rows_do_not_run_on_into_the_next() {
        assert_eq!(bay(&[]).neighbours(), [(0, 1), (0, 2), (1, 3), (2, 3)]);
    }

    #[test]
    fn silent_slots_are_unknown_in_the_task() {
        let bay = bay(&[None, Some(2), None, Some(0)]);
        assert_eq!(bay.silent(), [0, 2]);
        assert_eq!(bay.named(), "names 2 of 4 slots");
        assert_eq!(bay.marks(), [0, 1, 0, 1]);
        assert_eq!(bay.wanted(), [4, 2, 4, 0]);
        assert_eq!(bay.labels(), 0..5);
        assert!(bay.is_met());
        assert_eq!(bay.file(), [2, 2, 1, 2, 3, 0, 1, 2, 3, 0]);
    }

    #[test]
    fn a_full_order_has_nothing_unknown() {
        let bay = bay(&[Some(2), Some(1), Some(3), Some(0)]);
        assert!(bay.is_full() && !bay.is_met());
        assert_eq!(bay.labels(), 0..4);
        assert_eq!(bay.file(), [2, 2, 1, 2, 3, 0, 2, 1, 3, 0]);
    }
}

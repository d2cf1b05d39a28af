//! Lots: how often each label stands in the bay, and labels as they were typed.

use super::{Bay, GAP};
use std::collections::BTreeMap;

impl Bay {
    /// Each label that stands in the bay, with how often it does.
    pub fn held(&self) -> BTreeMap<usize, usize> {
        let mut held = BTreeMap::new();
        for label in &self.start {
            *held.entry(*label).or_default() += 1;
        }
        held
    }

    /// How often a label stands in the bay.
    pub fn often(&self, label: usize) -> usize {
        self.held().get(&label).copied().unwrap_or(0)
    }

    /// Whether no pallet has the label, though a slot of the task could hold it.
    pub fn is_spare(&self, label: usize) -> bool {
        label != self.unknown() && self.often(label) == 0
    }

    pub fn has_spare_labels(&self) -> bool {
        self.labels().any(|label| self.is_spare(label))
    }

    /// The labels of the pallets that stand in the bay, each once.
    pub fn pallets(&self) -> Vec<usize> {
        let labels = self.held().into_keys();
        labels.filter(|label| *label != GAP).collect()
    }

    /// Which labels more than one pallet has, as in "A stands 2 times, B stands 3 times"; nothing
    /// where each pallet has a label of its own.
    pub fn alike(&self) -> Option<String> {
        let held = self.held().into_iter();
        let lots = held.filter(|(_, count)| *count > 1);
        let words = lots.map(|(label, count)| format!("{} stands {count} times", self.name(label)));
        let words: Vec<String> = words.collect();
        (!words.is_empty()).then(|| words.join(", "))
    }

    /// A label as it was typed.
    pub fn name(&self, label: usize) -> String {
        let letter = label
            .checked_sub(1)
            .and_then(|index| self.letters.get(index));
        match (label, letter) {
            (GAP, _) => ".".to_string(),
            (_, Some(letter)) => letter.to_string(),
            (number, None) => number.to_string(),
        }
    }
}

#[cfg(test)]
mod tests {
    use super::*;

    fn bay(start: [usize; 4], letters: &str) -> Bay {
        Bay {
            rows: 2,
            columns: 2,
            start: start.to_vec(),
            goal: vec![None; 4],
            letters: letters.chars().collect(),
        }
    }

    #[test]
    fn pallets_of_one_label_are_counted() {
        let lots = bay([3, 1, 0, 3], "");
        assert_eq!([0, 1, 2, 3].map(|label| lots.often(label)), [1, 1, 0, 2]);
        assert_eq!(lots.pallets(), [1, 3]);
        assert!(lots.is_spare(2) && !lots.is_spare(lots.unknown()) && lots.has_spare_labels());
        assert_eq!(lots.alike().unwrap(), "3 stands 2 times");
        let different = bay([3, 1, 0, 2], "");
        assert!(different.alike().is_none() && !different.has_spare_labels());
        let two_lots = Bay {
            start: vec![1, 2, 1, 2, 0],
            ..bay([0; 4], "Ab")
        };
        assert_eq!(
            two_lots.alike().unwrap(),
            "A stands 2 times, b stands 2 times"
        );
    }

    #[test]
    fn labels_are_named_as_they_were_typed() {
        let named = |bay: Bay| [0, 1, 2].map(|label| bay.name(label)).join(" ");
        assert_eq!(named(bay([1, 1, 2, 0], "Ab")), ". A b");
        assert_eq!(named(bay([1, 1, 2, 0], "")), ". 1 2");
    }
}

//! The words of a workspace: how many there are, and where its parts stand in them.

use crate::features::{self, Features};

/// The most words that a workspace has: those of 64 variables and 32,768 features.
pub const MOST_WORDS: usize = 1 + 3 * 64 + 512 * (1 + 32_768);
/// So much room is lent whatever the task is, as it is next to nothing.
const LEAST_ROOM: usize = 1 << 10;

/// How many words the workspace of a task with these sizes has.
pub fn words_due(sizes: &[usize]) -> usize {
    let features = features::count(sizes);
    let set_words = features.div_ceil(64);
    let sets = set_words.saturating_mul(features.saturating_add(1));
    sets.saturating_add(pairs_from(sizes.len()))
}

/// Room for that workspace; sizes that break a limit are refused whatever the room is.
pub(super) fn room(sizes: &[usize]) -> usize {
    words_due(sizes).clamp(LEAST_ROOM, MOST_WORDS)
}

// Before the listed pairs stand the count of variables, the sizes, the start and the goal.
fn pairs_from(variables: usize) -> usize {
    1 + 3 * variables
}

/// A workspace that the library opened.
pub struct Workspace {
    words: Vec<u64>,
    features: Features,
}

impl Workspace {
    // The length has to fit the header, or the parts would be read from the wrong places.
    pub(super) fn new(words: Vec<u64>) -> Option<Workspace> {
        let variables = *words.first()? as usize;
        let sizes = words.get(1..)?.get(..variables)?;
        let features = Features::new(sizes.iter().map(|&word| word as usize).collect());
        let workspace = Workspace { words, features };
        let due = words_due(workspace.features.sizes());
        (workspace.words.len() == due).then_some(workspace)
    }

    pub fn words(&self) -> &[u64] {
        &self.words
    }

    pub fn into_features(self) -> Features {
        self.features
    }

    pub fn features(&self) -> &Features {
        &self.features
    }

    /// The start's values, as the library read them.
    pub fn start(&self) -> Vec<usize> {
        self.header_group(1)
    }

    /// The goal's values, as the library read them.
    pub fn goal(&self) -> Vec<usize> {
        self.header_group(2)
    }

    /// How many exclusive pairs the task lists.
    pub fn pair_count(&self) -> usize {
        let from = self.pairs_from();
        let pairs = &self.words[from..from + self.set_words()];
        pairs.iter().map(|word| word.count_ones() as usize).sum()
    }

    /// How many slots hold a forced set.
    pub fn condition_count(&self) -> usize {
        let from = self.pairs_from() + self.set_words();
        let slots = self.words[from..].chunks(self.set_words());
        slots
            .filter(|slot| slot.iter().any(|&word| word != 0))
            .count()
    }

    fn header_group(&self, group: usize) -> Vec<usize> {
        let variables = self.features.sizes().len();
        let from = 1 + group * variables;
        let values = &self.words[from..from + variables];
        values.iter().map(|&word| word as usize).collect()
    }

    fn pairs_from(&self) -> usize {
        pairs_from(self.features.sizes().len())
    }

    pub(super) fn set_words(&self) -> usize {
        self.features.count().div_ceil(64)
    }
}

#[cfg(test)]
mod tests {
    use super::*;

    // The words of bays of nine and of sixteen slots, and of the most features, as the rules count them.
    #[test]
    fn room_follows_the_sizes() {
        assert_eq!(words_due(&[2, 2]), 16);
        assert_eq!(words_due(&[9; 9]), 1 + 3 * 9 + 47 * (1 + 2_997));
        assert_eq!(words_due(&[16; 16]), 1 + 3 * 16 + 484 * (1 + 30_976));
        assert_eq!(room(&[2, 2]), LEAST_ROOM);
        assert_eq!(room(&[16; 16]), 14_992_917);
        assert_eq!(room(&[17; 16]), MOST_WORDS);
        assert_eq!(room(&[usize::MAX; 3]), MOST_WORDS);
        assert_eq!(MOST_WORDS, 16_777_921);
    }
}

//! How many slots the library has pending from operator to operator, as it postpones clearing.

use reference::feature_set::FeatureSet;
use reference::forced::Generators;

/// Slots are settled once one in so many of all is pending.
const SHARE: usize = 32;

/// An opening as far as it has come.
pub struct Course {
    generators: Generators,
    count: usize,
    filled: usize,
    pub pending: usize,
    pub settlings: usize,
}

impl Course {
    pub fn new(count: usize) -> Self {
        Course {
            generators: Generators::new(count),
            count,
            filled: 0,
            pending: 0,
            settlings: 0,
        }
    }

    /// Takes up the conditions of the next operator.
    pub fn take(&mut self, conditions: &[FeatureSet]) {
        for condition in conditions {
            self.generators.demand(condition);
        }
        let spent = |index: &usize| !self.generators.live(*index);
        let filled = (0..self.count).filter(spent).count();
        self.pending += filled - self.filled;
        self.filled = filled;
        if self.pending > 0 && self.pending >= self.count / SHARE {
            self.settlings += 1;
            self.pending = 0;
        }
    }
}

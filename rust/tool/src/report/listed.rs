//! The features that the weights list, ready to be looked up.

use crate::features::Feature;
use crate::question::Proof;
use std::collections::HashSet;

pub struct Listed {
    in_order: Vec<Feature>,
    set: HashSet<Feature>,
}

impl Listed {
    pub fn new(proof: &Proof) -> Listed {
        let numbers = proof.weights.iter();
        let in_order: Vec<Feature> = numbers.map(|&n| proof.features.get(n)).collect();
        let set = in_order.iter().copied().collect();
        Listed { in_order, set }
    }

    pub fn has(&self, feature: Feature) -> bool {
        self.set.contains(&feature)
    }

    pub fn len(&self) -> usize {
        self.in_order.len()
    }

    /// Those true in the first state and not in the second, in the order of their numbers.
    pub fn lost(&self, one: &[usize], two: &[usize]) -> Vec<Feature> {
        let lost = |feature: &Feature| feature.holds_in(one) && !feature.holds_in(two);
        self.in_order.iter().copied().filter(lost).collect()
    }

    /// How many change between the two states.
    pub fn changed(&self, one: &[usize], two: &[usize]) -> usize {
        self.lost(one, two).len() + self.lost(two, one).len()
    }

    pub fn true_in(&self, state: &[usize]) -> Vec<Feature> {
        let holds = |feature: &Feature| feature.holds_in(state);
        self.in_order.iter().copied().filter(holds).collect()
    }
}

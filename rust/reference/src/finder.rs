//! The least separating set: the least whole number among the weight lists that meet every
//! condition evenly and the ends oddly.

use crate::feature_set::FeatureSet;
use std::collections::BTreeMap;

/// Up to this many features all sets are tried in increasing order.
const MOST_ENUMERATED: usize = 16;

pub fn least_separating(
    count: usize,
    conditions: &[FeatureSet],
    ends: &FeatureSet,
) -> Option<FeatureSet> {
    if count <= MOST_ENUMERATED {
        least_by_enumeration(count, conditions, ends)
    } else {
        least_by_highest(count, conditions, ends)
    }
}

/// Tries the sets in increasing order of their whole numbers; for tiny tasks.
pub fn least_by_enumeration(
    count: usize,
    conditions: &[FeatureSet],
    ends: &FeatureSet,
) -> Option<FeatureSet> {
    let masks: Vec<u64> = conditions.iter().map(|set| set.words()[0]).collect();
    let difference = ends.words()[0];
    let odd = |mask: u64, number: u64| (mask & number).count_ones() % 2 == 1;
    (0..1u64 << count)
        .find(|number| {
            odd(difference, *number) && masks.iter().all(|condition| !odd(*condition, *number))
        })
        .map(|number| FeatureSet::from_words(&[number]))
}

/// Sets with distinct highest members, kept by them.
#[derive(Default)]
struct Stair {
    steps: BTreeMap<usize, FeatureSet>,
}

impl Stair {
    /// Adds a set unless it is a combination of earlier ones.
    fn add(&mut self, mut set: FeatureSet) {
        while let Some(highest) = set.highest() {
            match self.steps.get(&highest) {
                Some(step) => set.combine(step),
                None => {
                    self.steps.insert(highest, set);
                    return;
                }
            }
        }
    }

    /// The least set that differs from this one by a combination of steps.
    ///
    /// From the top down each step's highest member goes. What differs from the result by steps
    /// differs first, from the top, in some step's highest member, which the result lacks.
    fn least_alike(&self, mut set: FeatureSet) -> FeatureSet {
        for (highest, step) in self.steps.iter().rev() {
            if set.contains(*highest) {
                set.combine(step);
            }
        }
        set
    }

    /// The same combinations from steps that don't have each other's highest members.
    fn settled(self) -> Stair {
        let mut settled = Stair::default();
        // Steps go upward, so what is taken out of one is settled already.
        for (highest, mut step) in self.steps {
            for member in step.members() {
                if let Some(lower) = settled.steps.get(&member) {
                    step.combine(lower);
                }
            }
            settled.steps.insert(highest, step);
        }
        settled
    }

    /// One weight list for each feature that is no step's highest; all lists that meet every
    /// step evenly are combinations of these. With such a feature go the highest members of the
    /// settled steps that have it.
    fn even_lists(&self, count: usize) -> Vec<FeatureSet> {
        let free = (0..count).filter(|feature| !self.steps.contains_key(feature));
        let alone = |feature| (feature, FeatureSet::of(count, &[feature]));
        let mut lists: BTreeMap<usize, FeatureSet> = free.map(alone).collect();
        for (highest, step) in &self.steps {
            for member in step.members() {
                if let Some(list) = lists.get_mut(&member) {
                    list.insert(*highest);
                }
            }
        }
        lists.into_values().collect()
    }
}

/// Eliminates by highest members, lists what meets all conditions, and takes the least of those
/// that meet the ends oddly.
pub fn least_by_highest(
    count: usize,
    conditions: &[FeatureSet],
    ends: &FeatureSet,
) -> Option<FeatureSet> {
    let mut demanded = Stair::default();
    for condition in conditions {
        demanded.add(condition.clone());
    }
    let lists = demanded.settled().even_lists(count);
    let parting = lists.iter().find(|list| list.meets_oddly(ends))?.clone();
    let mut alike = Stair::default();
    for mut list in lists {
        // The parting list itself becomes empty here and adds nothing.
        if list.meets_oddly(ends) {
            list.combine(&parting);
        }
        alike.add(list);
    }
    Some(alike.least_alike(parting))
}

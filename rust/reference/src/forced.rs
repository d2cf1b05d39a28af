//! Forced sets and the slots that hold them.

use crate::feature_set::FeatureSet;

/// Up to this many features the slots come from all sets, straight from the definition.
const MOST_ENUMERATED: usize = 12;

pub fn slots(count: usize, conditions: &[FeatureSet]) -> Vec<FeatureSet> {
    if count <= MOST_ENUMERATED {
        slots_by_enumeration(count, conditions)
    } else {
        slots_by_generators(count, conditions)
    }
}

fn odd(one: u64, other: u64) -> bool {
    (one & other).count_ones() % 2 == 1
}

/// All forced sets, by meeting every set with every weight list that keeps the conditions.
fn forced_sets(count: usize, conditions: &[FeatureSet]) -> Vec<u64> {
    let masks: Vec<u64> = conditions.iter().map(|set| set.words()[0]).collect();
    let meets_all = |list: &u64| masks.iter().all(|condition| !odd(*condition, *list));
    let lists: Vec<u64> = (0..1u64 << count).filter(meets_all).collect();
    (0..1u64 << count)
        .filter(|set| lists.iter().all(|list| !odd(*set, *list)))
        .collect()
}

/// The slots straight from the definition; for tiny tasks.
pub fn slots_by_enumeration(count: usize, conditions: &[FeatureSet]) -> Vec<FeatureSet> {
    let forced = forced_sets(count, conditions);
    let least_is = |set: u64, index: usize| set != 0 && set.trailing_zeros() as usize == index;
    let filled: u64 = (0..count)
        .filter(|index| forced.iter().any(|set| least_is(*set, *index)))
        .map(|index| 1 << index)
        .sum();
    (0..count)
        .map(|index| {
            let fits = |set: &&u64| least_is(**set, index) && **set & filled == 1 << index;
            let fitting: Vec<&u64> = forced.iter().filter(fits).collect();
            assert!(
                fitting.len() as u64 == filled >> index & 1,
                "one set a slot"
            );
            FeatureSet::from_words(&[fitting.first().map_or(0, |set| **set)])
        })
        .collect()
}

/// Weight lists whose combinations are exactly the lists that meet the conditions so far.
///
/// There is one for each live number; its highest member is its number, and its other members
/// are numbers no longer live. So a live feature is in one list alone, that of its own number.
pub struct Generators {
    /// For each feature that is no longer live the numbers of the lists that hold it.
    holders: Vec<Option<FeatureSet>>,
    /// The numbers of all lists that have ever held such a feature.
    holding: FeatureSet,
}

impl Generators {
    /// Without conditions every single feature is a list of its own.
    pub fn new(count: usize) -> Self {
        Generators {
            holders: vec![None; count],
            holding: FeatureSet::empty(count),
        }
    }

    /// The lists that meet a set oddly.
    fn meeting_oddly(&self, set: &FeatureSet) -> FeatureSet {
        let mut odd = FeatureSet::empty(self.holders.len());
        for member in set.members() {
            match &self.holders[member] {
                Some(holders) => odd.combine(holders),
                None => odd.toggle(member),
            }
        }
        odd
    }

    /// Keeps only the lists that meet a condition evenly.
    ///
    /// The lowest odd list is spent on the others: they keep their highest members.
    pub fn demand(&mut self, condition: &FeatureSet) {
        let mut odd = self.meeting_oddly(condition);
        let Some(spent) = odd.least() else { return };
        if self.holding.contains(spent) {
            // No member of a list is above its number.
            for holders in self.holders[..spent].iter_mut().flatten() {
                if holders.contains(spent) {
                    holders.combine(&odd);
                }
            }
        }
        // The spent list alone held its own number, which the others take over.
        odd.remove(spent);
        self.holding.extend(odd.members());
        self.holders[spent] = Some(odd);
    }

    pub fn live(&self, number: usize) -> bool {
        self.holders[number].is_none()
    }

    /// The members of one list.
    pub fn list(&self, number: usize) -> FeatureSet {
        self.combined(&FeatureSet::of(self.holders.len(), &[number]))
    }

    /// What the lists of these numbers make together.
    pub fn combined(&self, numbers: &FeatureSet) -> FeatureSet {
        let count = self.holders.len();
        let held = |feature: &usize| match &self.holders[*feature] {
            Some(holders) => holders.meets_oddly(numbers),
            None => numbers.contains(*feature),
        };
        let members: Vec<usize> = (0..count).filter(held).collect();
        FeatureSet::of(count, &members)
    }

    /// A spent feature meets a list exactly when its holders' numbers do, so together they are
    /// forced; the numbers are higher and live, which is the shape of a slot.
    fn slot(&self, index: usize) -> FeatureSet {
        let Some(holders) = &self.holders[index] else {
            return FeatureSet::empty(self.holders.len());
        };
        let mut slot = holders.clone();
        slot.insert(index);
        slot
    }
}

/// Generators of the lists that meet all conditions.
pub fn generators(count: usize, conditions: &[FeatureSet]) -> Generators {
    let mut generators = Generators::new(count);
    for condition in conditions {
        generators.demand(condition);
    }
    generators
}

/// The slots from the lists that meet the conditions, without eliminating conditions.
pub fn slots_by_generators(count: usize, conditions: &[FeatureSet]) -> Vec<FeatureSet> {
    let generators = generators(count, conditions);
    (0..count).map(|index| generators.slot(index)).collect()
}

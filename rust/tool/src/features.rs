//! The numbering of features: single atoms first, then pairs of atoms.

/// One variable with one value; in a bay, one slot with what it holds.
#[derive(Clone, Copy, PartialEq, Eq, Hash, Debug)]
pub struct Atom {
    pub variable: usize,
    pub value: usize,
}

impl Atom {
    pub fn new(variable: usize, value: usize) -> Atom {
        Atom { variable, value }
    }

    fn holds_in(&self, state: &[usize]) -> bool {
        state[self.variable] == self.value
    }
}

/// What a feature speaks of.
#[derive(Clone, Copy, PartialEq, Eq, Hash, Debug)]
pub enum Feature {
    Single(Atom),
    Pair(Atom, Atom),
}

impl Feature {
    /// The feature of two atoms, in whichever order they come.
    pub fn pair(one: Atom, two: Atom) -> Feature {
        if one.variable < two.variable {
            Feature::Pair(one, two)
        } else {
            Feature::Pair(two, one)
        }
    }

    pub fn holds_in(&self, state: &[usize]) -> bool {
        match self {
            Feature::Single(atom) => atom.holds_in(state),
            Feature::Pair(one, two) => one.holds_in(state) && two.holds_in(state),
        }
    }
}

/// How many features of one atom a task with these sizes has.
pub fn single_count(sizes: &[usize]) -> usize {
    sizes.iter().sum()
}

/// How many features such a task has in all; unlike a list of them, it can be had of any sizes, and
/// sizes beyond all counting have the most that can be counted.
pub fn count(sizes: &[usize]) -> usize {
    let (mut before, mut pairs) = (0usize, 0usize);
    for &size in sizes {
        pairs = pairs.saturating_add(before.saturating_mul(size));
        before = before.saturating_add(size);
    }
    before.saturating_add(pairs)
}

/// All features of a task with these sizes, by number.
pub struct Features {
    sizes: Vec<usize>,
    all: Vec<Feature>,
}

impl Features {
    pub fn new(sizes: Vec<usize>) -> Features {
        let mut all = Vec::new();
        for variable in 0..sizes.len() {
            all.extend(atoms(&sizes, variable).map(Feature::Single));
        }
        for low in 0..sizes.len() {
            for high in low + 1..sizes.len() {
                push_pairs(&mut all, &sizes, low, high);
            }
        }
        Features { sizes, all }
    }

    pub fn sizes(&self) -> &[usize] {
        &self.sizes
    }

    pub fn count(&self) -> usize {
        self.all.len()
    }

    pub fn get(&self, number: usize) -> Feature {
        self.all[number]
    }

    /// Those of the listed features that are true in the state.
    pub fn true_in(&self, listed: &[usize], state: &[usize]) -> Vec<usize> {
        let held = |number: &usize| self.all[*number].holds_in(state);
        listed.iter().copied().filter(held).collect()
    }
}

fn atoms(sizes: &[usize], variable: usize) -> impl Iterator<Item = Atom> {
    (0..sizes[variable]).map(move |value| Atom::new(variable, value))
}

fn push_pairs(all: &mut Vec<Feature>, sizes: &[usize], low: usize, high: usize) {
    for one in atoms(sizes, low) {
        all.extend(atoms(sizes, high).map(|two| Feature::Pair(one, two)));
    }
}

#[cfg(test)]
mod tests {
    use super::*;

    #[test]
    fn counts_follow_the_limits_of_the_rules() {
        let due = [
            (vec![2, 2], 8),
            (vec![64, 62], 4094),
            (vec![64, 64, 64, 64, 30], 32_542),
            (vec![1; 64], 2080),
            (vec![9; 9], 2997),
            (vec![16; 16], 30_976),
            (vec![17; 16], 34_952),
            (vec![], 0),
        ];
        for (sizes, total) in due {
            assert_eq!(count(&sizes), total, "{sizes:?}");
            let singles = single_count(&sizes);
            let features = Features::new(sizes);
            assert_eq!(features.count(), total);
            let single = |number: &usize| matches!(features.get(*number), Feature::Single(_));
            assert_eq!((0..total).filter(single).count(), singles);
        }
        assert_eq!(count(&[16_383; 2]), 268_435_455);
        assert_eq!(count(&[2_097_151; 2_000_000]), usize::MAX);
    }

    // Seven atoms, then the pairs of variables 0 and 1 (six), 0 and 2 (four), 1 and 2 (six).
    #[test]
    fn features_are_numbered_by_the_rules() {
        let features = Features::new(vec![2, 3, 2]);
        let single = |variable, value| Feature::Single(Atom::new(variable, value));
        let pair = |(i, x), (j, y)| Feature::Pair(Atom::new(i, x), Atom::new(j, y));
        let due = [
            (0, single(0, 0)),
            (2, single(1, 0)),
            (6, single(2, 1)),
            (7, pair((0, 0), (1, 0))),
            (9, pair((0, 0), (1, 2))),
            (10, pair((0, 1), (1, 0))),
            (13, pair((0, 0), (2, 0))),
            (16, pair((0, 1), (2, 1))),
            (17, pair((1, 0), (2, 0))),
            (22, pair((1, 2), (2, 1))),
        ];
        for (number, feature) in due {
            assert_eq!(features.get(number), feature, "{number}");
        }
        assert_eq!(features.count(), 23);
    }

    #[test]
    fn the_second_value_of_a_pair_runs_faster() {
        let features = Features::new(vec![2, 3]);
        let pair = Feature::pair(Atom::new(1, 2), Atom::new(0, 1));
        assert_eq!(features.get(10), pair);
        assert_eq!(features.true_in(&[1, 4, 9, 10], &[1, 2]), [1, 4, 10]);
    }
}

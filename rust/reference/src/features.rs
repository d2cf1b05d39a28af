//! Atoms, features, and the numbering of features by a written-out list.

use crate::feature_set::FeatureSet;

/// One variable with one of its values.
#[derive(Clone, Copy, Debug, PartialEq, Eq)]
pub struct Atom {
    pub variable: usize,
    pub value: usize,
}

/// A single atom, or atoms of two variables with the lower variable first.
#[derive(Clone, Copy, Debug, PartialEq, Eq)]
pub enum Feature {
    Single(Atom),
    Mixed(Atom, Atom),
}

/// A full state: the value of each variable.
pub type State = Vec<usize>;

impl Feature {
    pub fn holds(&self, state: &[usize]) -> bool {
        let true_in_state = |atom: &Atom| state[atom.variable] == atom.value;
        match self {
            Feature::Single(atom) => true_in_state(atom),
            Feature::Mixed(first, second) => true_in_state(first) && true_in_state(second),
        }
    }
}

/// All features of the sizes, in order, with their numbers.
#[derive(Clone, Debug)]
pub struct Features {
    sizes: Vec<usize>,
    list: Vec<Feature>,
    /// Where the list has each atom alone, by variable and value.
    alone: Vec<Vec<usize>>,
    /// Where it has two atoms, by the places where it has each of them alone; there may be many
    /// such places, so they are kept short.
    together: Vec<Vec<Option<u32>>>,
}

/// N, for sizes that may be far too large to list.
pub fn count_features(sizes: &[usize]) -> usize {
    let mut count: usize = sizes.iter().sum();
    for (variable, size) in sizes.iter().enumerate() {
        for later in &sizes[variable + 1..] {
            count += size * later;
        }
    }
    count
}

fn atoms(variable: usize, size: usize) -> impl Iterator<Item = Atom> {
    (0..size).map(move |value| Atom { variable, value })
}

fn list_features(sizes: &[usize]) -> Vec<Feature> {
    let mut list = Vec::with_capacity(count_features(sizes));
    for (variable, size) in sizes.iter().enumerate() {
        list.extend(atoms(variable, *size).map(Feature::Single));
    }
    for first in 0..sizes.len() {
        for second in first + 1..sizes.len() {
            for slow in atoms(first, sizes[first]) {
                for fast in atoms(second, sizes[second]) {
                    list.push(Feature::Mixed(slow, fast));
                }
            }
        }
    }
    list
}

impl Features {
    pub fn new(sizes: &[usize]) -> Self {
        let mut features = Features {
            sizes: sizes.to_vec(),
            list: list_features(sizes),
            alone: vec![Vec::new(); sizes.len()],
            together: Vec::new(),
        };
        features.note_places();
        features
    }

    /// Notes where the list has each feature; atoms alone come first.
    fn note_places(&mut self) {
        let singles = self.sizes.iter().sum();
        self.together = vec![vec![None; singles]; singles];
        for (place, feature) in self.list.iter().enumerate() {
            match feature {
                Feature::Single(atom) => self.alone[atom.variable].push(place),
                Feature::Mixed(one, other) => {
                    let row = self.alone[one.variable][one.value];
                    let column = self.alone[other.variable][other.value];
                    self.together[row][column] = Some(place as u32);
                }
            }
        }
    }

    pub fn sizes(&self) -> &[usize] {
        &self.sizes
    }

    /// N.
    pub fn count(&self) -> usize {
        self.list.len()
    }

    /// A, where the two-variable features begin.
    pub fn singles(&self) -> usize {
        self.together.len()
    }

    pub fn feature(&self, number: usize) -> Feature {
        self.list[number]
    }

    pub fn single(&self, atom: Atom) -> usize {
        self.alone[atom.variable][atom.value]
    }

    /// The same, if the atom is of these sizes.
    fn place(&self, atom: Atom) -> Option<usize> {
        self.alone[atom.variable].get(atom.value).copied()
    }

    /// The number of two atoms' feature; none for two atoms of one variable.
    pub fn mixed(&self, one: Atom, other: Atom) -> Option<usize> {
        let (first, second) = if one.variable < other.variable {
            (one, other)
        } else {
            (other, one)
        };
        let place = self.together[self.place(first)?][self.place(second)?];
        place.map(|place| place as usize)
    }

    /// The features that are true in a state.
    pub fn true_in(&self, state: &[usize]) -> FeatureSet {
        let mut set = FeatureSet::empty(self.count());
        self.insert_true(&mut set, state, |_, _| true);
        set
    }

    /// The features that tell two states apart: of those that one of them makes true, all in which
    /// a variable has another value there.
    pub fn changed(&self, from: &[usize], to: &[usize]) -> FeatureSet {
        let differs = |variable: usize| from[variable] != to[variable];
        let mut set = FeatureSet::empty(self.count());
        for state in [from, to] {
            self.insert_true(&mut set, state, |one, other| differs(one) || differs(other));
        }
        set
    }

    /// Inserts the features of asked variables that are true in a state; a single atom's variable
    /// is asked for twice.
    fn insert_true(
        &self,
        set: &mut FeatureSet,
        state: &[usize],
        asked: impl Fn(usize, usize) -> bool,
    ) {
        let atom = |variable: usize| Atom {
            variable,
            value: state[variable],
        };
        for first in 0..state.len() {
            if asked(first, first) {
                set.insert(self.single(atom(first)));
            }
            for second in (first + 1..state.len()).filter(|second| asked(first, *second)) {
                set.extend(self.mixed(atom(first), atom(second)));
            }
        }
    }
}

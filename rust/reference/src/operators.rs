//! Operators, exclusive pairs, and the conditions that an operator puts on weights.

use crate::feature_set::FeatureSet;
use crate::features::{Atom, Features, State};
use std::rc::Rc;

/// One variable of an operator with its value before and after.
#[derive(Clone, Copy, Debug, PartialEq, Eq)]
pub struct Entry {
    pub variable: usize,
    pub before: usize,
    pub after: usize,
}

/// Entries with strictly increasing variables; copies of an operator share them.
#[derive(Clone, Debug, PartialEq, Eq)]
pub struct Operator {
    pub entries: Rc<[Entry]>,
}

impl From<Vec<Entry>> for Operator {
    fn from(entries: Vec<Entry>) -> Self {
        Operator {
            entries: entries.into(),
        }
    }
}

impl Operator {
    pub fn before_atoms(&self) -> Vec<Atom> {
        let before = |entry: &Entry| Atom {
            variable: entry.variable,
            value: entry.before,
        };
        self.entries.iter().map(before).collect()
    }

    pub fn after_atoms(&self) -> Vec<Atom> {
        let after = |entry: &Entry| Atom {
            variable: entry.variable,
            value: entry.after,
        };
        self.entries.iter().map(after).collect()
    }

    pub fn names(&self, variable: usize) -> bool {
        self.entries.iter().any(|entry| entry.variable == variable)
    }

    pub fn applies(&self, state: &[usize]) -> bool {
        self.entries
            .iter()
            .all(|entry| state[entry.variable] == entry.before)
    }

    /// The state that this one leads to where it applies.
    pub fn applied(&self, state: &[usize]) -> State {
        let mut next = state.to_vec();
        for entry in self.entries.iter() {
            next[entry.variable] = entry.after;
        }
        next
    }
}

/// The features of a task with the listed pairs among them.
#[derive(Clone, Debug)]
pub struct Pairing {
    pub features: Features,
    pub listed: FeatureSet,
}

impl Pairing {
    pub fn new(sizes: &[usize], pairs: &[usize]) -> Self {
        let features = Features::new(sizes);
        let listed = FeatureSet::of(features.count(), pairs);
        Pairing { features, listed }
    }

    /// The number of two atoms' feature, if it is listed.
    fn listed_pair(&self, one: Atom, other: Atom) -> Option<usize> {
        let number = self.features.mixed(one, other);
        number.filter(|number| self.listed.contains(*number))
    }

    pub fn paired(&self, one: Atom, other: Atom) -> bool {
        self.listed_pair(one, other).is_some()
    }

    fn any_two_paired(&self, atoms: &[Atom]) -> bool {
        atoms
            .iter()
            .any(|one| atoms.iter().any(|other| self.paired(*one, *other)))
    }

    fn paired_with_any(&self, atom: Atom, others: &[Atom]) -> bool {
        others.iter().any(|other| self.paired(atom, *other))
    }

    /// The listed pairs that a state holds, increasing.
    pub fn held(&self, state: &[usize]) -> Vec<usize> {
        let mut pairs = self.listed.members();
        pairs.retain(|number| self.features.feature(*number).holds(state));
        pairs
    }

    /// Whether a state holds a listed pair.
    pub fn held_by(&self, state: &[usize]) -> bool {
        !self.held(state).is_empty()
    }

    /// The atoms of the variables that an operator doesn't name.
    fn unnamed_atoms(&self, operator: &Operator) -> Vec<Atom> {
        let mut atoms = Vec::new();
        for (variable, size) in self.features.sizes().iter().enumerate() {
            if !operator.names(variable) {
                atoms.extend((0..*size).map(|value| Atom { variable, value }));
            }
        }
        atoms
    }

    /// The values of unnamed variables that are possible: paired with no before atom.
    fn possible_atoms(&self, operator: &Operator) -> Vec<Atom> {
        let befores = operator.before_atoms();
        let mut atoms = self.unnamed_atoms(operator);
        atoms.retain(|atom| !self.paired_with_any(*atom, &befores));
        atoms
    }

    /// For each variable the values considered: the before value, or those that are possible.
    pub fn considered_values(&self, operator: &Operator) -> Vec<Vec<usize>> {
        let mut values = vec![Vec::new(); self.features.sizes().len()];
        for entry in operator.entries.iter() {
            values[entry.variable].push(entry.before);
        }
        for atom in self.possible_atoms(operator) {
            values[atom.variable].push(atom.value);
        }
        values
    }

    pub fn idle(&self, operator: &Operator) -> bool {
        self.any_two_paired(&operator.before_atoms())
            || self
                .considered_values(operator)
                .iter()
                .any(|values| values.is_empty())
    }

    /// Whether the listed pairs are closed under an operator.
    pub fn closed(&self, operator: &Operator) -> bool {
        if self.idle(operator) {
            return true;
        }
        let befores = operator.before_atoms();
        let afters = operator.after_atoms();
        // Only before atoms excuse a paired value, never the after atom under test.
        let excused = |atom: &Atom| {
            !self.paired_with_any(*atom, &afters) || self.paired_with_any(*atom, &befores)
        };
        !self.any_two_paired(&afters) && self.unnamed_atoms(operator).iter().all(excused)
    }

    /// The pairs by which the list isn't closed under an operator, increasing.
    pub fn unclosed(&self, operator: &Operator) -> Vec<usize> {
        if self.idle(operator) {
            return Vec::new();
        }
        let afters = operator.after_atoms();
        // An after atom may stand beside another one, or beside an unnamed one that is possible.
        let mut beside = self.possible_atoms(operator);
        beside.extend(&afters);
        let mut pairs = Vec::new();
        for after in afters {
            let with_after = |other: &Atom| self.listed_pair(after, *other);
            pairs.extend(beside.iter().filter_map(with_after));
        }
        pairs.sort_unstable();
        pairs.dedup();
        pairs
    }
}

/// Above this number of considered states a task is no longer tiny.
const MOST_STATES: usize = 64;

/// All considered states: the values of the variables freely combined.
pub fn combined_states(values: &[Vec<usize>]) -> Vec<State> {
    let mut states = vec![Vec::new()];
    for choices in values {
        let mut longer = Vec::new();
        for state in &states {
            for value in choices {
                let mut extended = state.clone();
                extended.push(*value);
                longer.push(extended);
            }
        }
        states = longer;
    }
    states
}

/// The state of first values, and those that differ from it in one variable.
///
/// An operator changes no feature of two unnamed variables, so the change from any considered
/// state is a combination of the changes from these.
pub fn deviating_states(values: &[Vec<usize>]) -> Vec<State> {
    let base: State = values.iter().map(|choices| choices[0]).collect();
    let mut states = vec![base.clone()];
    for (variable, choices) in values.iter().enumerate() {
        for value in &choices[1..] {
            let mut state = base.clone();
            state[variable] = *value;
            states.push(state);
        }
    }
    states
}

/// Whether all considered states can be tried one by one.
pub fn few_states(values: &[Vec<usize>]) -> bool {
    values
        .iter()
        .try_fold(1usize, |product, choices| {
            let larger = product * choices.len();
            (larger <= MOST_STATES).then_some(larger)
        })
        .is_some()
}

/// Considered states that decide about an operator: all of them where they are few.
pub fn deciding_states(pairing: &Pairing, operator: &Operator) -> Vec<State> {
    if pairing.idle(operator) {
        return Vec::new();
    }
    let values = pairing.considered_values(operator);
    if few_states(&values) {
        combined_states(&values)
    } else {
        deviating_states(&values)
    }
}

/// The features that change from a state; weights must meet them evenly.
pub fn change_from(pairing: &Pairing, operator: &Operator, state: &[usize]) -> FeatureSet {
    pairing.features.changed(state, &operator.applied(state))
}

/// The same for each of several states.
pub fn changes_from(pairing: &Pairing, operator: &Operator, states: &[State]) -> Vec<FeatureSet> {
    let changes = states.iter();
    changes
        .map(|state| change_from(pairing, operator, state))
        .collect()
}

/// The conditions of one operator; an idle one has none.
pub fn conditions(pairing: &Pairing, operator: &Operator) -> Vec<FeatureSet> {
    changes_from(pairing, operator, &deciding_states(pairing, operator))
}

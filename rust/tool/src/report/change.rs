//! What changes at one step of a proof, and how many listed features change with it.

use super::listed::Listed;
use crate::bay::Bay;
use crate::features::{Atom, Feature};

/// What some slots hold before a step and after it; all other slots stay as they are.
pub struct Change {
    pub before: Vec<Atom>,
    pub after: Vec<Atom>,
}

impl Change {
    pub fn touches(&self, slot: usize) -> bool {
        self.before.iter().any(|atom| atom.variable == slot)
    }

    fn atoms(&self) -> impl Iterator<Item = Atom> + '_ {
        self.before.iter().chain(&self.after).copied()
    }

    /// How many listed features change that name no slot but those of the step.
    pub fn own(&self, listed: &Listed) -> usize {
        let singles = self.atoms().map(Feature::Single);
        let pairs = [&*self.before, &*self.after].into_iter().filter_map(both);
        let changing = singles.chain(pairs);
        changing.filter(|feature| listed.has(*feature)).count()
    }

    /// How many listed features change that name another slot, holding this label.
    pub fn with(&self, other: Atom, listed: &Listed) -> usize {
        let pairs = self.atoms().map(|atom| Feature::pair(atom, other));
        pairs.filter(|pair| listed.has(*pair)).count()
    }

    /// What can stand elsewhere while the step is made: what the bay holds beside the step.
    pub fn elsewhere(&self, bay: &Bay) -> Vec<usize> {
        let here = |label| self.before.iter().filter(move |atom| atom.value == label);
        let others = |label| bay.often(label) > here(label).count();
        let free = |&label: &usize| label == bay.unknown() || others(label);
        bay.labels().filter(free).collect()
    }
}

// The pair of two atoms; one atom alone has none.
fn both(atoms: &[Atom]) -> Option<Feature> {
    match *atoms {
        [one, two] => Some(Feature::pair(one, two)),
        _ => None,
    }
}

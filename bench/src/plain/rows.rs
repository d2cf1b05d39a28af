//! The rows of one operator that is not idle: the change at its base state, and the difference that each other possible value makes.

use super::features::{Features, Plane};
use super::numbering::Numbering;
use super::set;
use super::task::{Entry, Operator};

/// Whether an atom is true before and after.
#[derive(Clone, Copy)]
enum Kind {
    Kept = 1,
    Made = 2,
    Used = 3,
}

/// Whether the feature of two atoms changes its truth, by their kinds: absent, kept, made, used.
const GRID: [[bool; 4]; 4] = [
    [false, false, false, false],
    [false, false, true, true],
    [false, true, true, false],
    [false, true, false, true],
];

/// The values of a variable that goes from one to another, with the kinds of their atoms.
fn kinds(entry: &Entry) -> impl Iterator<Item = (usize, Kind)> {
    let (first, second) = if entry.before == entry.after {
        ((entry.before, Kind::Kept), None)
    } else {
        let made = (entry.after, Kind::Made);
        ((entry.before, Kind::Used), Some(made))
    };
    std::iter::once(first).chain(second)
}

/// What makes the rows of one operator.
pub struct Rows<'a, N> {
    features: &'a Features<N>,
    operator: &'a Operator,
    possible: &'a [u64],
    base: Vec<usize>,
    row: Vec<u64>,
}

impl<'a, N: Numbering> Rows<'a, N> {
    pub fn new(features: &'a Features<N>, operator: &'a Operator, possible: &'a [u64]) -> Self {
        Rows {
            features,
            operator,
            possible,
            base: base_state(features, operator, possible),
            row: vec![0; features.words()],
        }
    }

    /// Hands each row over, to be used up.
    pub fn visit(mut self, mut visit: impl FnMut(&mut [u64])) {
        self.fill_change();
        visit(&mut self.row);
        for variable in 0..self.features.variables() {
            for (atom, number) in self.features.atoms_of(variable) {
                if set::has(self.possible, number) && atom.value != self.base[variable] {
                    self.fill_difference(variable, atom.value);
                    visit(&mut self.row);
                }
            }
        }
    }

    /// The change at the base state.
    fn fill_change(&mut self) {
        self.row.fill(0);
        let entries = &self.operator.entries;
        for (place, entry) in entries.iter().enumerate() {
            set::toggle(&mut self.row, self.features.single(entry.atom_before()));
            set::toggle(&mut self.row, self.features.single(entry.atom_after()));
            for earlier in &entries[..place] {
                let plane = self.features.plane(earlier.variable, entry.variable);
                self.toggle_together(&plane, earlier, entry);
            }
        }
        for variable in 0..self.features.variables() {
            if !self.operator.names(variable) {
                self.toggle_beside(variable, [self.base[variable]]);
            }
        }
    }

    /// The difference that a value of an unnamed variable makes to the change at the base state.
    fn fill_difference(&mut self, variable: usize, value: usize) {
        self.row.fill(0);
        self.toggle_beside(variable, [self.base[variable], value]);
    }

    /// Toggles what an unnamed variable, which keeps its value, changes together with each entry, for each of some values.
    fn toggle_beside<const V: usize>(&mut self, variable: usize, values: [usize; V]) {
        for entry in &self.operator.entries {
            let plane = self.features.plane(variable, entry.variable);
            for value in values {
                let still = Entry {
                    variable,
                    before: value,
                    after: value,
                };
                self.toggle_together(&plane, &still, entry);
            }
        }
    }

    /// Toggles what two variables change together, in their plane.
    fn toggle_together(&mut self, plane: &Plane, one: &Entry, other: &Entry) {
        for (value, kind) in kinds(one) {
            for (other_value, other_kind) in kinds(other) {
                if GRID[kind as usize][other_kind as usize] {
                    set::toggle(&mut self.row, plane.number(value, other_value));
                }
            }
        }
    }
}

/// The before values, and the least possible values elsewhere.
fn base_state<N: Numbering>(
    features: &Features<N>,
    operator: &Operator,
    possible: &[u64],
) -> Vec<usize> {
    let mut base: Vec<usize> = (0..features.variables())
        .map(|variable| least_possible(features, possible, variable))
        .collect();
    for entry in &operator.entries {
        base[entry.variable] = entry.before;
    }
    base
}

/// The least possible value of a variable; its size where there is none.
fn least_possible<N: Numbering>(
    features: &Features<N>,
    possible: &[u64],
    variable: usize,
) -> usize {
    features
        .atoms_of(variable)
        .find(|&(_, number)| set::has(possible, number))
        .map_or(features.size(variable), |(atom, _)| atom.value)
}

//! Listed pairs: what an operator leaves possible, whether it is idle, whether the list is closed under it.

use super::features::{Atom, Block, Features};
use super::numbering::Numbering;
use super::set;
use super::task::{Entry, Operator};

/// A listed pair with its atoms.
pub struct Pair {
    pub feature: usize,
    pub atoms: [Atom; 2],
}

pub struct Pairs<'a, N> {
    features: &'a Features<N>,
    listed: &'a [u64],
    /// Where no pair is listed, none is looked up.
    is_empty: bool,
}

impl<'a, N: Numbering> Pairs<'a, N> {
    pub fn new(features: &'a Features<N>, listed: &'a [u64]) -> Pairs<'a, N> {
        Pairs {
            features,
            listed,
            is_empty: set::least(listed).is_none(),
        }
    }

    fn are_paired(&self, one: Atom, other: Atom) -> bool {
        set::has(self.listed, self.features.pair(one, other))
    }

    fn is_paired_before(&self, entries: &[Entry], atom: Atom) -> bool {
        let is_paired = |entry: &Entry| self.are_paired(entry.atom_before(), atom);
        !self.is_empty && entries.iter().any(is_paired)
    }

    fn unnamed<'b>(&'b self, operator: &'b Operator) -> impl Iterator<Item = usize> + 'b {
        (0..self.features.variables()).filter(|&variable| !operator.names(variable))
    }

    /// The atoms of unnamed variables that are paired with no before atom.
    pub fn possible(&self, operator: &Operator) -> Vec<u64> {
        let mut possible = vec![0; self.features.words()];
        for variable in self.unnamed(operator) {
            for (atom, number) in self.features.atoms_of(variable) {
                if !self.is_paired_before(&operator.entries, atom) {
                    set::toggle(&mut possible, number);
                }
            }
        }
        possible
    }

    pub fn is_idle(&self, operator: &Operator, possible: &[u64]) -> bool {
        let entries = &operator.entries;
        let clashes = entries
            .iter()
            .enumerate()
            .any(|(place, entry)| self.is_paired_before(&entries[..place], entry.atom_before()));
        clashes
            || self.unnamed(operator).any(|variable| {
                !self
                    .features
                    .atoms_of(variable)
                    .any(|(_, number)| set::has(possible, number))
            })
    }

    /// Whether an operator leaves an atom: its variable's after value, or a possible value where the operator does not name it.
    fn is_left(&self, operator: &Operator, possible: &[u64], atom: Atom) -> bool {
        match operator.entry_of(atom.variable) {
            Some(entry) => entry.after == atom.value,
            None => set::has(possible, self.features.single(atom)),
        }
    }

    /// A listed pair of a block, if it is unclosed under an operator that is not idle.
    fn unclosed_in(
        &self,
        operator: &Operator,
        possible: &[u64],
        block: &Block,
        feature: usize,
    ) -> Option<Pair> {
        if !operator.names(block.low) && !operator.names(block.high) {
            return None;
        }
        let atoms = self.features.atoms_in(block, feature);
        let is_unclosed = atoms
            .into_iter()
            .all(|atom| self.is_left(operator, possible, atom));
        is_unclosed.then_some(Pair { feature, atoms })
    }

    /// A walk over the listed pairs, for those that are unclosed under an operator that is not idle.
    pub fn unclosed<'b>(
        &'b self,
        operator: &'b Operator,
        possible: &'b [u64],
    ) -> impl Iterator<Item = Pair> + 'b {
        let mut blocks = self.features.blocks();
        let mut block = Block::BEFORE_ALL;
        set::members(self.listed).filter_map(move |feature| {
            while block.end <= feature {
                block = blocks.next().expect("each pair stands in a block");
            }
            self.unclosed_in(operator, possible, &block, feature)
        })
    }

    pub fn are_closed_under(&self, operator: &Operator) -> bool {
        let possible = self.possible(operator);
        self.is_idle(operator, &possible) || self.unclosed(operator, &possible).next().is_none()
    }

    pub fn are_held_by(&self, state: &[usize]) -> bool {
        let atom = |variable: usize| Atom {
            variable,
            value: state[variable],
        };
        let is_held = |high| (0..high).any(|low| self.are_paired(atom(low), atom(high)));
        !self.is_empty && (0..state.len()).any(is_held)
    }
}

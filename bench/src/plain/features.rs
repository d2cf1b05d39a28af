//! Features: how many there are, and the number of each.

use super::numbering::Numbering;
use super::set::WORD_BITS;

pub const MOST_FEATURES: usize = 32768;

/// A variable with one of its values.
#[derive(Clone, Copy)]
pub struct Atom {
    pub variable: usize,
    pub value: usize,
}

/// Where the features of two variables stand: the first number, and how far a step of each value leads.
pub struct Plane {
    first: usize,
    step: usize,
    other_step: usize,
}

impl Plane {
    pub fn number(&self, value: usize, other: usize) -> usize {
        self.first + value * self.step + other * self.other_step
    }
}

/// The features of two variables as a block of numbers, from `start` to right before `end`.
pub struct Block {
    pub low: usize,
    pub high: usize,
    pub start: usize,
    pub end: usize,
}

impl Block {
    /// Stands before all blocks and is empty.
    pub const BEFORE_ALL: Block = Block {
        low: 0,
        high: 0,
        start: 0,
        end: 0,
    };
}

/// The sizes of the variables, with a way to the numbers of their features.
pub struct Features<N> {
    sizes: Vec<usize>,
    atoms: usize,
    count: usize,
    numbering: N,
}

impl<N: Numbering> Features<N> {
    pub fn new(sizes: Vec<usize>) -> Features<N> {
        let (mut atoms, mut pairs) = (0, 0);
        for size in &sizes {
            pairs += atoms * size;
            atoms += size;
        }
        Features {
            numbering: N::new(&sizes),
            sizes,
            atoms,
            count: atoms + pairs,
        }
    }

    pub fn variables(&self) -> usize {
        self.sizes.len()
    }

    pub fn sizes(&self) -> &[usize] {
        &self.sizes
    }

    pub fn size(&self, variable: usize) -> usize {
        self.sizes[variable]
    }

    pub fn atoms(&self) -> usize {
        self.atoms
    }

    pub fn count(&self) -> usize {
        self.count
    }

    /// How many words hold a bit for each feature.
    pub fn words(&self) -> usize {
        self.count.div_ceil(WORD_BITS)
    }

    pub fn single(&self, atom: Atom) -> usize {
        self.numbering.first_atom(&self.sizes, atom.variable) + atom.value
    }

    /// The atoms of a variable with their numbers.
    pub fn atoms_of(&self, variable: usize) -> impl Iterator<Item = (Atom, usize)> {
        let first = self.numbering.first_atom(&self.sizes, variable);
        (0..self.size(variable)).map(move |value| (Atom { variable, value }, first + value))
    }

    /// The features of two variables, either way round.
    pub fn plane(&self, one: usize, other: usize) -> Plane {
        let first = |low, high| self.numbering.first_pair(&self.sizes, low, high);
        if one < other {
            Plane {
                first: first(one, other),
                step: self.size(other),
                other_step: 1,
            }
        } else {
            Plane {
                first: first(other, one),
                step: 1,
                other_step: self.size(one),
            }
        }
    }

    pub fn pair(&self, one: Atom, other: Atom) -> usize {
        self.plane(one.variable, other.variable)
            .number(one.value, other.value)
    }

    /// The blocks of any two variables, one after the other.
    pub fn blocks(&self) -> impl Iterator<Item = Block> + '_ {
        let variables = self.variables();
        let two = move |low| (low + 1..variables).map(move |high| (low, high));
        let mut end = self.atoms;
        (0..variables).flat_map(two).map(move |(low, high)| {
            let start = end;
            end += self.size(low) * self.size(high);
            Block {
                low,
                high,
                start,
                end,
            }
        })
    }

    /// The two atoms of a feature, by its block.
    pub fn atoms_in(&self, block: &Block, feature: usize) -> [Atom; 2] {
        let size = self.size(block.high);
        let place = feature - block.start;
        [(block.low, place / size), (block.high, place % size)]
            .map(|(variable, value)| Atom { variable, value })
    }
}

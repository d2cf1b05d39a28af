//! Two ways to the numbers of features: worked out anew at each use, and read off tables that are kept.

/// A way to the number at which a variable's atoms begin, and the features of two variables.
pub trait Numbering {
    fn new(sizes: &[usize]) -> Self;

    fn first_atom(&self, sizes: &[usize], variable: usize) -> usize;

    /// The first feature of two variables, the lower one first.
    fn first_pair(&self, sizes: &[usize], low: usize, high: usize) -> usize;
}

/// Works each number out anew, as the library does: nothing is kept between two uses.
pub struct Anew;

impl Numbering for Anew {
    fn new(_sizes: &[usize]) -> Anew {
        Anew
    }

    fn first_atom(&self, sizes: &[usize], variable: usize) -> usize {
        sizes[..variable].iter().sum()
    }

    fn first_pair(&self, sizes: &[usize], low: usize, high: usize) -> usize {
        let (mut atoms, mut behind) = (0, 0);
        for (variable, size) in sizes.iter().enumerate().skip(low).rev() {
            atoms += size;
            if variable == high {
                behind = atoms;
            }
        }
        let mut pairs = sizes[low] * (atoms - (sizes[low] + behind));
        for size in sizes[..low].iter().rev() {
            pairs += size * atoms;
            atoms += size;
        }
        atoms + pairs
    }
}

/// Reads each number off tables that are filled once for the whole call.
pub struct Tables {
    /// The number of each variable's first atom, and of atoms in all.
    first_atoms: Vec<usize>,
    /// The number of each variable's first feature with a later variable.
    first_pairs: Vec<usize>,
}

impl Numbering for Tables {
    fn new(sizes: &[usize]) -> Tables {
        let mut first_atoms = vec![0];
        for size in sizes {
            first_atoms.push(first_atoms.last().unwrap() + size);
        }
        let atoms = first_atoms[sizes.len()];
        let mut first_pairs = Vec::with_capacity(sizes.len());
        let mut next = atoms;
        for (variable, size) in sizes.iter().enumerate() {
            first_pairs.push(next);
            next += size * (atoms - first_atoms[variable + 1]);
        }
        Tables {
            first_atoms,
            first_pairs,
        }
    }

    fn first_atom(&self, _sizes: &[usize], variable: usize) -> usize {
        self.first_atoms[variable]
    }

    fn first_pair(&self, sizes: &[usize], low: usize, high: usize) -> usize {
        let between = self.first_atoms[high] - self.first_atoms[low + 1];
        self.first_pairs[low] + sizes[low] * between
    }
}

//! A task file mended: only the largest good part of its pair list is kept.

use super::features::Features;
use super::file::{write_list, write_number, Reader, Refusal};
use super::numbering::Numbering;
use super::pairs::{Pair, Pairs};
use super::set;
use super::task::{read_operator, Entry, Front, Operator};

/// A mended task file, and what it took.
pub struct Mended {
    pub file: Vec<u8>,
    /// How many pairs are left of how many.
    pub kept: usize,
    pub listed: usize,
    /// How many operators there are; each pass reads all of them.
    pub operators: usize,
    pub passes: usize,
    /// How many times an operator was judged.
    pub judged: usize,
}

/// Mends a task file. As in the library nothing but the list is kept from one pass to the next: operators are read anew in each.
pub fn mend<N: Numbering>(bytes: &[u8]) -> Result<Mended, Refusal> {
    let mut reader = Reader::new(bytes);
    let front = Front::<N>::read(&mut reader)?;
    let operators = Operators::read(&mut reader, &front.features)?;
    reader.end()?;
    let mut mending = Mending {
        features: &front.features,
        listed: front.listed.clone(),
        judged: 0,
    };
    mending.drop_held(&front.start);
    let passes = mending.settle(&operators)?;
    let kept: Vec<usize> = set::members(&mending.listed).collect();
    Ok(Mended {
        file: written(bytes, &front, &kept, &operators),
        kept: kept.len(),
        listed: set::members(&front.listed).count(),
        operators: operators.count,
        passes,
        judged: mending.judged,
    })
}

/// The operators of a file, as their bytes.
struct Operators<'a> {
    count: usize,
    reader: Reader<'a>,
}

impl<'a> Operators<'a> {
    /// Reads past the operators.
    fn read<N: Numbering>(
        reader: &mut Reader<'a>,
        features: &Features<N>,
    ) -> Result<Operators<'a>, Refusal> {
        let operators = Operators {
            count: reader.number()?,
            reader: *reader,
        };
        for _ in 0..operators.count {
            read_operator(reader, features)?;
        }
        Ok(operators)
    }
}

/// A pair list from which pairs are taken out.
struct Mending<'a, N> {
    features: &'a Features<N>,
    listed: Vec<u64>,
    judged: usize,
}

impl<N: Numbering> Mending<'_, N> {
    fn no_atoms(&self) -> Vec<u64> {
        vec![0; self.features.words()]
    }

    /// Takes pairs out, and adds their atoms to those that are touched.
    fn drop_pairs(&mut self, pairs: &[Pair], touched: &mut [u64]) {
        for pair in pairs {
            set::toggle(&mut self.listed, pair.feature);
            for atom in pair.atoms {
                set::include(touched, self.features.single(atom));
            }
        }
    }

    /// Takes out what the start holds: what is unclosed under the operator that leaves each of its values.
    fn drop_held(&mut self, start: &[usize]) {
        let entries = start.iter().enumerate().map(|(variable, &value)| Entry {
            variable,
            before: value,
            after: value,
        });
        let standing = Operator {
            entries: entries.collect(),
        };
        let mut touched = self.no_atoms();
        let held: Vec<Pair> = Pairs::new(self.features, &self.listed)
            .unclosed(&standing, &[])
            .collect();
        self.drop_pairs(&held, &mut touched);
    }

    /// Takes out what is unclosed under an operator, unless it is idle.
    fn drop_under(&mut self, operator: &Operator, touched: &mut [u64]) {
        self.judged += 1;
        let pairs = Pairs::new(self.features, &self.listed);
        let possible = pairs.possible(operator);
        if pairs.is_idle(operator, &possible) {
            return;
        }
        let unclosed: Vec<Pair> = pairs.unclosed(operator, &possible).collect();
        self.drop_pairs(&unclosed, touched);
    }

    /// Whether a pair of the touched atoms may matter to an operator: two of its before atoms, or one of them and an atom of a variable that it doesn't name.
    fn is_touched(&self, operator: &Operator, touched: &[u64]) -> bool {
        let befores = operator.entries.iter();
        let mut found =
            befores.filter(|entry| set::has(touched, self.features.single(entry.atom_before())));
        found.next().is_some() && (found.next().is_some() || self.is_beside(operator, touched))
    }

    fn is_beside(&self, operator: &Operator, touched: &[u64]) -> bool {
        let variables = 0..self.features.variables();
        let mut unnamed = variables.filter(|&variable| !operator.names(variable));
        unnamed.any(|variable| {
            let mut atoms = self.features.atoms_of(variable);
            atoms.any(|(_, number)| set::has(touched, number))
        })
    }

    /// One pass, which answers the atoms of what it takes out. The first pass judges every operator, a later one those to which atoms
    /// matter that were touched in the pass before, or in this one.
    fn pass(&mut self, operators: &Operators, old: Option<&[u64]>) -> Result<Vec<u64>, Refusal> {
        let mut reader = operators.reader;
        let mut touched = self.no_atoms();
        for _ in 0..operators.count {
            let operator = read_operator(&mut reader, self.features)?;
            let is_due = old.is_none_or(|old| {
                self.is_touched(&operator, old) || self.is_touched(&operator, &touched)
            });
            if is_due {
                self.drop_under(&operator, &mut touched);
            }
        }
        Ok(touched)
    }

    /// Passes until one takes nothing out, and answers how many.
    fn settle(&mut self, operators: &Operators) -> Result<usize, Refusal> {
        let mut touched = self.pass(operators, None)?;
        let mut passes = 1;
        while set::least(&touched).is_some() {
            touched = self.pass(operators, Some(&touched))?;
            passes += 1;
        }
        Ok(passes)
    }
}

/// The file with another pair list.
fn written<N: Numbering>(
    bytes: &[u8],
    front: &Front<N>,
    kept: &[usize],
    operators: &Operators,
) -> Vec<u8> {
    let mut file = bytes[..front.bytes_before_pairs()].to_vec();
    write_list(&mut file, kept);
    write_number(&mut file, operators.count);
    file.extend_from_slice(operators.reader.rest());
    file
}

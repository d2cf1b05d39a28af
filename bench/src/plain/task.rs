//! A task, read from its file and judged.

use super::features::{Atom, Features, MOST_FEATURES};
use super::file::{Reader, Refusal};
use super::numbering::Numbering;
use super::pairs::Pairs;
use super::set;

pub const MOST_VARIABLES: usize = 64;
pub const MOST_SIZE: usize = 64;

#[derive(Clone, Copy)]
pub struct Entry {
    pub variable: usize,
    pub before: usize,
    pub after: usize,
}

impl Entry {
    pub fn atom_before(&self) -> Atom {
        Atom {
            variable: self.variable,
            value: self.before,
        }
    }

    pub fn atom_after(&self) -> Atom {
        Atom {
            variable: self.variable,
            value: self.after,
        }
    }
}

pub struct Operator {
    pub entries: Vec<Entry>,
}

impl Operator {
    pub fn names(&self, variable: usize) -> bool {
        self.entry_of(variable).is_some()
    }

    pub fn entry_of(&self, variable: usize) -> Option<&Entry> {
        self.entries.iter().find(|entry| entry.variable == variable)
    }
}

pub struct Task<N> {
    pub features: Features<N>,
    pub start: Vec<usize>,
    pub goal: Vec<usize>,
    /// The listed pairs as a set of features.
    pub listed: Vec<u64>,
    pub operators: Vec<Operator>,
}

/// What stands before the operators of a task file.
pub struct Front<N> {
    pub features: Features<N>,
    pub start: Vec<usize>,
    pub goal: Vec<usize>,
    pub listed: Vec<u64>,
}

impl<N: Numbering> Front<N> {
    pub fn read(reader: &mut Reader) -> Result<Front<N>, Refusal> {
        let features = read_features(reader)?;
        let start = read_state(reader, &features)?;
        let goal = read_state(reader, &features)?;
        let listed = read_listed(reader, &features)?;
        Ok(Front {
            features,
            start,
            goal,
            listed,
        })
    }

    /// How many bytes stand before the pair list: each number there takes one.
    pub fn bytes_before_pairs(&self) -> usize {
        1 + 3 * self.features.variables()
    }
}

impl<N: Numbering> Task<N> {
    /// Reads a task file and judges it: refusals 1 to 7.
    pub fn read(bytes: &[u8]) -> Result<Task<N>, Refusal> {
        let mut reader = Reader::new(bytes);
        let Front {
            features,
            start,
            goal,
            listed,
        } = Front::read(&mut reader)?;
        let operators = read_operators(&mut reader, &features)?;
        reader.end()?;
        let task = Task {
            features,
            start,
            goal,
            listed,
            operators,
        };
        task.judge()?;
        Ok(task)
    }

    pub fn pairs(&self) -> Pairs<'_, N> {
        Pairs::new(&self.features, &self.listed)
    }

    fn judge(&self) -> Result<(), Refusal> {
        if self.pairs().are_held_by(&self.start) {
            return Err(Refusal::Held);
        }
        if !self.is_closed() {
            return Err(Refusal::Unclosed);
        }
        Ok(())
    }

    /// Whether the pairs are closed under every operator: one pass of judging 7.
    pub fn is_closed(&self) -> bool {
        let pairs = self.pairs();
        self.operators
            .iter()
            .all(|operator| pairs.are_closed_under(operator))
    }
}

fn read_features<N: Numbering>(reader: &mut Reader) -> Result<Features<N>, Refusal> {
    let variables = reader.item(1..MOST_VARIABLES + 1, Refusal::Limit)?;
    let sizes = (0..variables)
        .map(|_| reader.item(1..MOST_SIZE + 1, Refusal::Limit))
        .collect::<Result<Vec<usize>, Refusal>>()?;
    let features = Features::new(sizes);
    if features.count() > MOST_FEATURES {
        return Err(Refusal::Limit);
    }
    Ok(features)
}

fn read_state<N: Numbering>(
    reader: &mut Reader,
    features: &Features<N>,
) -> Result<Vec<usize>, Refusal> {
    features
        .sizes()
        .iter()
        .map(|&size| reader.item(0..size, Refusal::Range))
        .collect()
}

fn read_listed<N: Numbering>(
    reader: &mut Reader,
    features: &Features<N>,
) -> Result<Vec<u64>, Refusal> {
    let mut listed = vec![0; features.words()];
    let mut least = 0;
    for _ in 0..reader.number()? {
        let feature = reader.rising(features.atoms()..features.count(), least)?;
        set::toggle(&mut listed, feature);
        least = feature + 1;
    }
    Ok(listed)
}

fn read_operators<N: Numbering>(
    reader: &mut Reader,
    features: &Features<N>,
) -> Result<Vec<Operator>, Refusal> {
    let count = reader.number()?;
    (0..count)
        .map(|_| read_operator(reader, features))
        .collect()
}

pub fn read_operator<N: Numbering>(
    reader: &mut Reader,
    features: &Features<N>,
) -> Result<Operator, Refusal> {
    let variables = features.variables();
    let count = reader.item(1..variables + 1, Refusal::Range)?;
    let mut entries = Vec::with_capacity(count);
    let mut least = 0;
    for _ in 0..count {
        let variable = reader.rising(0..variables, least)?;
        let size = features.size(variable);
        let before = reader.item(0..size, Refusal::Range)?;
        let after = reader.item(0..size, Refusal::Range)?;
        entries.push(Entry {
            variable,
            before,
            after,
        });
        least = variable + 1;
    }
    Ok(Operator { entries })
}

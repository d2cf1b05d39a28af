//! The two kinds of task and weight files: features as they are, or by their gaps behind a mark.

use crate::numbers::Reader;

/// How a file lists features.
#[derive(Clone, Copy, Debug, PartialEq, Eq)]
pub enum Kind {
    /// Each feature as it is.
    Old,
    /// The first feature as it is, then each gap less one; the file begins with a mark.
    New,
}

/// What a file of the new kind begins with: no old task has so few variables.
pub const MARK: usize = 0;

/// The kind of a task file, by its first number.
pub fn kind_of(task: &[u8]) -> Kind {
    Reader::new(task).kind()
}

impl Kind {
    pub const BOTH: [Kind; 2] = [Kind::Old, Kind::New];

    pub fn other(self) -> Kind {
        match self {
            Kind::Old => Kind::New,
            Kind::New => Kind::Old,
        }
    }

    /// The numbers that stand in front of a file.
    pub fn front(self) -> Vec<usize> {
        match self {
            Kind::Old => Vec::new(),
            Kind::New => vec![MARK],
        }
    }

    /// A list of increasing features as a file has it, behind its count.
    pub fn list(self, features: &[usize]) -> Vec<usize> {
        let listed = match self {
            Kind::Old => features.to_vec(),
            Kind::New => gaps(features),
        };
        [vec![features.len()], listed].concat()
    }
}

/// The first feature as it is, and how many are left out before each of the others.
fn gaps(features: &[usize]) -> Vec<usize> {
    let first = features.iter().take(1).copied();
    let others = features.windows(2).map(|two| two[1] - two[0] - 1);
    first.chain(others).collect()
}

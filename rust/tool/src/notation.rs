//! The two kinds of task files and weight files: an old one has its listed features as they are; a new one
//! begins with 0, and has the first feature and then each gap less one.

use crate::numbers::{self, Form};

/// A new file begins with this number, which is no count of variables.
const MARK: usize = 0;

/// How a file writes the features that it lists.
#[derive(Clone, Copy, PartialEq, Eq, Debug)]
pub enum Notation {
    Old,
    New,
}

impl Notation {
    /// The kind of a task file, by its first number; none where no number stands there.
    pub fn of_task(file: &[u8]) -> Option<Notation> {
        match numbers::read(file) {
            (Form::Number(MARK), _) => Some(Notation::New),
            (Form::Number(_), _) => Some(Notation::Old),
            _ => None,
        }
    }

    /// Takes what only a new task file begins with off the front of a task file of either kind.
    pub fn take_off(file: &mut &[u8]) -> Option<Notation> {
        let notation = Notation::of_task(file)?;
        if notation == Notation::New {
            numbers::take(file)?;
        }
        Some(notation)
    }

    pub fn other(self) -> Notation {
        match self {
            Notation::Old => Notation::New,
            Notation::New => Notation::Old,
        }
    }

    pub fn word(self) -> &'static str {
        match self {
            Notation::Old => "old",
            Notation::New => "new",
        }
    }

    /// Takes a list of features: its count, and then as many numbers.
    pub fn take_list(self, bytes: &mut &[u8]) -> Option<Vec<usize>> {
        let numbers = numbers::take_list(bytes)?;
        Some(match self {
            Notation::Old => numbers,
            Notation::New => summed(numbers),
        })
    }

    /// Appends a list of features, which increase.
    pub fn put_list(self, bytes: &mut Vec<u8>, features: &[usize]) {
        match self {
            Notation::Old => numbers::put_list(bytes, features),
            Notation::New => numbers::put_list(bytes, &gaps(features)),
        }
    }
}

fn summed(gaps: Vec<usize>) -> Vec<usize> {
    let mut least = 0;
    let feature = |gap| {
        let feature = least + gap;
        least = feature + 1;
        feature
    };
    gaps.into_iter().map(feature).collect()
}

fn gaps(features: &[usize]) -> Vec<usize> {
    let mut least = 0;
    let gap = |&feature: &usize| {
        let gap = feature - least;
        least = feature + 1;
        gap
    };
    features.iter().map(gap).collect()
}

#[cfg(test)]
mod tests {
    use super::*;

    #[test]
    fn the_first_number_says_the_kind() {
        let due: [(&[u8], Option<Notation>); 6] = [
            (&[0], Some(Notation::New)),
            (&[0, 0x80], Some(Notation::New)),
            (&[2, 0], Some(Notation::Old)),
            (&[0x80, 1], Some(Notation::Old)),
            (&[], None),
            (&[0x80, 0], None),
        ];
        for (file, notation) in due {
            assert_eq!(Notation::of_task(file), notation, "{file:?}");
            let mut left = file;
            assert_eq!(Notation::take_off(&mut left), notation, "{file:?}");
            let taken = usize::from(notation == Some(Notation::New));
            assert_eq!(left, &file[taken..]);
        }
    }

    // Gaps of 1 and of 62 are written as 0 and 61.
    #[test]
    fn a_new_list_has_the_first_feature_and_then_gaps() {
        let features = [4, 5, 67, 16_384, 16_385];
        let old = [5, 4, 5, 67, 0x80, 0x80, 1, 0x81, 0x80, 1];
        let new = [5, 4, 0, 61, 0xbc, 0x7f, 0];
        for (notation, list) in [(Notation::Old, &old[..]), (Notation::New, &new)] {
            let mut bytes = Vec::new();
            notation.put_list(&mut bytes, &features);
            assert_eq!(bytes, list);
            let mut left = list;
            assert_eq!(notation.take_list(&mut left).unwrap(), features);
            assert!(left.is_empty());
            assert_eq!(notation.take_list(&mut &[0][..]).unwrap(), []);
            assert_eq!(notation.take_list(&mut &[2, 7][..]), None);
        }
    }
}

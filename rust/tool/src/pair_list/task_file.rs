//! A task file around its pair list.

use super::cause::{Cause, Entry, Operator};
use super::{Culprit, Pair};
use crate::features::{Feature, Features};
use crate::library::Reason;
use crate::notation::Notation;
use crate::numbers;

/// A task file that the library found well formed, cut before its pair list and behind it.
pub struct TaskFile<'a> {
    notation: Notation,
    features: Features,
    start: Vec<usize>,
    /// What says its kind, the count of variables, sizes, start and goal.
    front: &'a [u8],
    /// The listed pairs, increasing.
    pub pairs: Vec<usize>,
    /// The count of operators, and the operators.
    back: &'a [u8],
}

impl<'a> TaskFile<'a> {
    /// None where the bytes have no such parts.
    pub fn read(bytes: &'a [u8]) -> Option<TaskFile<'a>> {
        let mut left = bytes;
        let notation = Notation::take_off(&mut left)?;
        let variables = numbers::take(&mut left)?;
        let sizes = numbers::take_many(&mut left, variables)?;
        let start = numbers::take_many(&mut left, variables)?;
        let _goal = numbers::take_many(&mut left, variables)?;
        let front = &bytes[..bytes.len() - left.len()];
        let pairs = notation.take_list(&mut left)?;
        Some(TaskFile {
            notation,
            features: Features::new(sizes),
            start,
            front,
            pairs,
            back: left,
        })
    }

    /// The same file, of the same kind, with another pair list.
    pub fn with(&self, pairs: &[usize]) -> Vec<u8> {
        let mut bytes = self.front.to_vec();
        self.notation.put_list(&mut bytes, pairs);
        bytes.extend(self.back);
        bytes
    }

    pub fn sizes(&self) -> &[usize] {
        self.features.sizes()
    }

    /// A listed pair with its atoms; none where the number is not in the list.
    pub fn pair(&self, number: usize) -> Option<Pair> {
        self.pairs.binary_search(&number).ok()?;
        let feature = (number < self.features.count()).then(|| self.features.get(number))?;
        match feature {
            Feature::Pair(one, two) => Some(Pair { number, one, two }),
            Feature::Single(_) => None,
        }
    }

    /// A listed pair that cannot stay, with its cause; none where the file does not bear it out, as
    /// the words would mislead then.
    pub fn culprit(&self, number: usize, reason: Reason) -> Option<Culprit> {
        let pair = self.pair(number)?;
        let cause = match reason {
            Reason::Start => self.holds(&pair).then_some(Cause::Start),
            Reason::Operator(number) => {
                let operator = self.operator(number)?;
                operator
                    .leads_to(&pair)
                    .then_some(Cause::Operator(operator))
            }
        };
        cause.map(|cause| Culprit { pair, cause })
    }

    fn holds(&self, pair: &Pair) -> bool {
        Feature::Pair(pair.one, pair.two).holds_in(&self.start)
    }

    fn operator(&self, number: usize) -> Option<Operator> {
        let mut left = self.back;
        let count = numbers::take(&mut left)?;
        let mut operators = (0..count).map(|_| take_entries(&mut left));
        let entries = operators.nth(number)??;
        Some(Operator { number, entries })
    }
}

fn take_entries(bytes: &mut &[u8]) -> Option<Vec<Entry>> {
    let count = numbers::take(bytes)?;
    let numbers = numbers::take_many(bytes, 3 * count)?;
    let entry = |three: &[usize]| Entry {
        variable: three[0],
        before: three[1],
        after: three[2],
    };
    Some(numbers.chunks(3).map(entry).collect())
}

#[cfg(test)]
mod tests {
    use super::*;
    use crate::features::Atom;

    // Sizes 2 and 64, so that pairs stand on both sides of 128; two operators.
    const TASK: [u8; 25] = [
        2, 2, 64, 0, 1, 1, 0, 3, 67, 0x80, 1, 0xc1, 1, 2, 1, 0, 0, 1, 2, 0, 1, 0, 1, 5, 63,
    ];

    #[test]
    fn a_file_is_cut_around_its_pairs() {
        let file = TaskFile::read(&TASK).unwrap();
        assert_eq!(file.sizes(), [2, 64]);
        assert_eq!(file.pairs, [67, 128, 193]);
    }

    #[test]
    fn operators_are_found_by_number() {
        let file = TaskFile::read(&TASK).unwrap();
        let entries = |number| {
            let entries = file.operator(number)?.entries.into_iter();
            let entries = entries.map(|entry| (entry.variable, entry.before, entry.after));
            Some(entries.collect::<Vec<_>>())
        };
        assert_eq!(entries(0).unwrap(), [(0, 0, 1)]);
        assert_eq!(entries(1).unwrap(), [(0, 1, 0), (1, 5, 63)]);
        assert_eq!(entries(2), None);
    }

    // The start is 0 1, operator 0 leads to value 1 of variable 0, and operator 1 to 0 and 63.
    #[test]
    fn only_what_the_file_bears_out_is_a_culprit() {
        let file = TaskFile::read(&TASK).unwrap();
        let is_culprit = |number, reason| file.culprit(number, reason).is_some();
        let by_start = [67, 68, 128, 193].map(|pair| is_culprit(pair, Reason::Start));
        assert_eq!(by_start, [true, false, false, false]);
        let by = |operator| [67, 128, 193].map(|pair| is_culprit(pair, Reason::Operator(operator)));
        assert_eq!(by(0), [false, false, true]);
        assert_eq!(by(1), [true, true, true]);
        assert_eq!(by(2), [false; 3]);
    }

    #[test]
    fn another_list_takes_the_place_of_the_old_one() {
        let file = TaskFile::read(&TASK).unwrap();
        assert_eq!(file.with(&file.pairs), TASK);
        let shorter = [
            2, 2, 64, 0, 1, 1, 0, 1, 0x80, 1, 2, 1, 0, 0, 1, 2, 0, 1, 0, 1, 5, 63,
        ];
        assert_eq!(file.with(&[128]), shorter);
        assert_eq!(TaskFile::read(&shorter).unwrap().pairs, [128]);
    }

    // The same pairs as the first of them and two gaps less one: 60 and 64.
    #[test]
    fn a_new_file_is_cut_in_the_same_way() {
        let new = [
            0, 2, 2, 64, 0, 1, 1, 0, 3, 67, 60, 64, 2, 1, 0, 0, 1, 2, 0, 1, 0, 1, 5, 63,
        ];
        let (file, old) = (
            TaskFile::read(&new).unwrap(),
            TaskFile::read(&TASK).unwrap(),
        );
        assert_eq!(file.sizes(), [2, 64]);
        assert_eq!(file.pairs, [67, 128, 193]);
        assert_eq!(file.with(&file.pairs), new);
        assert_eq!(file.operator(1), old.operator(1));
        let shorter = [
            0, 2, 2, 64, 0, 1, 1, 0, 2, 67, 125, 2, 1, 0, 0, 1, 2, 0, 1, 0, 1, 5, 63,
        ];
        assert_eq!(file.with(&[67, 193]), shorter);
        for length in 0..12 {
            assert!(TaskFile::read(&new[..length]).is_none(), "{length}");
        }
    }

    // There are 66 atoms, so 66 is value 0 with value 0, and 130 is value 1 with value 0.
    #[test]
    fn pairs_are_named_by_the_numbering_of_the_rules() {
        let file = TaskFile::read(&TASK).unwrap();
        let atoms = |number| {
            let pair = file.pair(number).unwrap();
            (pair.one, pair.two)
        };
        assert_eq!(atoms(67), (Atom::new(0, 0), Atom::new(1, 1)));
        assert_eq!(atoms(128), (Atom::new(0, 0), Atom::new(1, 62)));
        assert_eq!(atoms(193), (Atom::new(0, 1), Atom::new(1, 63)));
        assert!(file.pair(68).is_none());
    }

    #[test]
    fn what_is_no_task_file_has_no_parts() {
        for length in 0..13 {
            assert!(TaskFile::read(&TASK[..length]).is_none(), "{length}");
        }
        assert!(TaskFile::read(&[1, 2, 0, 1, 0x80, 0, 0]).is_none());
    }
}

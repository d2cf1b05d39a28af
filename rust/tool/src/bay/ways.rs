//! The ways to fill the slots that an order does not name.

use super::Bay;
use std::iter::repeat_n;

impl Bay {
    /// What is left for the silent slots, increasing: each label as often as it stands in the bay,
    /// less the slots that the order names it for.
    pub fn left(&self) -> Vec<usize> {
        let mut left = self.held();
        for label in self.goal.iter().flatten() {
            left.entry(*label)
                .and_modify(|count| *count = count.saturating_sub(1));
        }
        let each = left.into_iter();
        each.flat_map(|(label, count)| repeat_n(label, count))
            .collect()
    }

    /// The goal with these labels in the silent slots, one after the other.
    pub fn filled(&self, labels: &[usize]) -> Vec<usize> {
        let mut labels = labels.iter().copied();
        let named = self.goal.iter();
        let fill = named.map(|label| label.or_else(|| labels.next()));
        // There are never fewer labels left than silent slots.
        fill.flatten().collect()
    }

    /// In how many ways the silent slots can be filled; pallets of one label are alike.
    pub fn ways(&self) -> usize {
        let orders = |labels: &[usize]| (1..=labels.len()).product::<usize>();
        let left = self.left();
        let lots = left.chunk_by(|one, two| one == two);
        orders(&left) / lots.map(orders).product::<usize>()
    }

    /// The full order of each way, in the order of their labels.
    pub fn completions(&self) -> Vec<Bay> {
        let complete = |labels: Vec<usize>| Bay {
            goal: self.filled(&labels).into_iter().map(Some).collect(),
            ..self.clone()
        };
        arrangements(&self.left())
            .into_iter()
            .map(complete)
            .collect()
    }
}

// Every order of some increasing labels, each once.
fn arrangements(labels: &[usize]) -> Vec<Vec<usize>> {
    if labels.is_empty() {
        return vec![Vec::new()];
    }
    let mut all = Vec::new();
    for (index, &first) in labels.iter().enumerate() {
        // What is alike leads to the same orders.
        if index > 0 && labels[index - 1] == first {
            continue;
        }
        let others = [&labels[..index], &labels[index + 1..]].concat();
        for rest in arrangements(&others) {
            all.push([vec![first], rest].concat());
        }
    }
    all
}

#[cfg(test)]
mod tests {
    use super::*;

    fn bay(start: [usize; 4], goal: [Option<usize>; 4]) -> Bay {
        Bay {
            rows: 1,
            columns: 4,
            start: start.to_vec(),
            goal: goal.to_vec(),
            letters: Vec::new(),
        }
    }

    fn goals(bay: &Bay) -> Vec<Vec<usize>> {
        bay.completions().iter().map(Bay::wanted).collect()
    }

    #[test]
    fn each_way_comes_once() {
        let different = |goal| bay([0, 1, 2, 3], goal);
        let two = different([None, Some(2), None, Some(1)]);
        assert_eq!((two.left(), two.ways()), (vec![0, 3], 2));
        assert_eq!(goals(&two), [[0, 2, 3, 1], [3, 2, 0, 1]]);
        let full = different([Some(3), Some(2), Some(1), Some(0)]);
        assert_eq!((goals(&full).len(), full.ways()), (1, 1));
    }

    #[test]
    fn alike_pallets_make_no_further_way() {
        let lots = |goal| bay([1, 0, 3, 1], goal);
        let three = lots([None, Some(1), None, None]);
        assert_eq!((three.left(), three.ways()), (vec![0, 1, 3], 6));
        let one_lot = lots([None, Some(3), None, None]);
        assert_eq!((one_lot.left(), one_lot.ways()), (vec![0, 1, 1], 3));
        let due = [[0, 3, 1, 1], [1, 3, 0, 1], [1, 3, 1, 0]];
        assert_eq!(goals(&one_lot), due);
    }

    // All that four slots could hold, those kept that hold what the start does where it may be.
    fn by_trying(bay: &Bay) -> Vec<Vec<usize>> {
        let sorted = |labels: &[usize]| {
            let mut labels = labels.to_vec();
            labels.sort_unstable();
            labels
        };
        let any = (0..256).map(|number| [64, 16, 4, 1].map(|place| number / place % 4).to_vec());
        let due = sorted(&bay.start);
        let fits = |labels: &Vec<usize>| {
            let mut both = bay.goal.iter().zip(labels);
            both.all(|(wanted, label)| wanted.is_none_or(|wanted| wanted == *label))
        };
        any.filter(|labels| sorted(labels) == due && fits(labels))
            .collect()
    }

    #[test]
    fn the_ways_are_those_that_trying_finds() {
        for start in [[0, 1, 2, 3], [1, 0, 1, 2], [3, 3, 0, 3], [2, 0, 2, 1]] {
            let values = [None, Some(0), Some(1), Some(2), Some(3)];
            for number in 0..625 {
                let goal = [125, 25, 5, 1].map(|place| values[number / place % 5]);
                let bay = bay(start, goal);
                let found = by_trying(&bay);
                // An order that no way meets is refused by the builder.
                if !found.is_empty() {
                    assert_eq!(goals(&bay), found, "{start:?} {goal:?}");
                    assert_eq!(bay.ways(), found.len(), "{start:?} {goal:?}");
                }
            }
        }
    }

    #[test]
    fn labels_that_do_not_fit_leave_more_than_enough() {
        let twice = bay([0, 1, 2, 3], [Some(1), Some(1), None, Some(9)]);
        assert_eq!(twice.left(), [0, 2, 3]);
        assert_eq!(twice.filled(&twice.left()), [1, 1, 0, 9]);
        let lots = bay([1, 1, 0, 2], [Some(2), None, Some(2), None]);
        assert_eq!(lots.left(), [0, 1, 1]);
        assert_eq!(lots.filled(&lots.left()), [2, 0, 2, 1]);
    }
}

//! Random bays, and all lists of labels for small ones.

use super::Generator;
use crate::bay::{times, Bay, GAP};
use crate::feature_set::FeatureSet;
use crate::features::{Atom, Features};
use crate::limits::{LEAST_SLOTS, MOST_SIDE, NOW};

/// All rows and columns that a bay may have.
pub fn shapes() -> Vec<(usize, usize)> {
    let mut shapes = Vec::new();
    for rows in 1..=MOST_SIDE {
        for columns in 1..=MOST_SIDE {
            if (LEAST_SLOTS..=NOW.slots).contains(&(rows * columns)) {
                shapes.push((rows, columns));
            }
        }
    }
    shapes
}

/// The shapes of at most so many slots.
pub fn shapes_within(most: usize) -> Vec<(usize, usize)> {
    let mut shapes = shapes();
    shapes.retain(|(rows, columns)| rows * columns <= most);
    shapes
}

/// The gap and any lots; now and then all labels are different.
fn labels(generator: &mut Generator, slots: usize) -> Vec<usize> {
    let mut labels: Vec<usize> = (0..slots).collect();
    if !generator.once_in(3) {
        // Few lots more often than many, so that some occur often and others never.
        let many = generator.between(1, slots - 1);
        let few = generator.between(1, many);
        let lots: Vec<usize> = (0..few).map(|_| generator.between(1, slots - 1)).collect();
        labels[1..].fill_with(|| generator.choose(&lots));
    }
    shuffled(generator, &labels)
}

/// The same labels, each as often, in any slots.
pub fn shuffled(generator: &mut Generator, labels: &[usize]) -> Vec<usize> {
    let mut labels = labels.to_vec();
    generator.shuffle(&mut labels);
    labels
}

pub fn bay(generator: &mut Generator, (rows, columns): (usize, usize)) -> Bay {
    let start = labels(generator, rows * columns);
    Bay {
        rows,
        columns,
        goal: shuffled(generator, &start),
        start,
    }
}

/// Spoils labels: no gap or several, unequal lots; now and then both lists hold the same, so that
/// only the gap can be at fault.
pub fn mislabel(generator: &mut Generator, bay: &mut Bay) {
    let slots = bay.slots();
    for _ in 0..generator.between(1, 2) {
        let list = if generator.once_in(2) {
            &mut bay.start
        } else {
            &mut bay.goal
        };
        let gap = list.iter().position(|label| *label == GAP);
        let place = gap.filter(|_| generator.once_in(4));
        let label = if generator.once_in(4) {
            GAP
        } else {
            generator.below(slots)
        };
        list[place.unwrap_or(generator.below(slots))] = label;
    }
    if generator.once_in(5) {
        bay.goal = shuffled(generator, &bay.start);
    }
}

/// Lists of labels grown slot by slot, as long as what has grown so far is kept.
fn grown(slots: usize, kept: impl Fn(&[usize]) -> bool) -> Vec<Vec<usize>> {
    let mut lists = vec![Vec::new()];
    for _ in 0..slots {
        let mut longer = Vec::new();
        for list in &lists {
            longer.extend((0..slots).map(|label| [&list[..], &[label]].concat()));
        }
        longer.retain(|list| kept(list));
        lists = longer;
    }
    lists
}

/// Every list of labels in range, good or not.
pub fn every_list(slots: usize) -> Vec<Vec<usize>> {
    grown(slots, |_| true)
}

/// Every list that holds the same labels, each as often.
pub fn arrangements(labels: &[usize]) -> Vec<Vec<usize>> {
    grown(labels.len(), |list| {
        let spent = |label: &usize| times(list, *label) <= times(labels, *label);
        list.iter().all(spent)
    })
}

/// Weights that every move keeps: out-of-order labels, and the colour of the gap's slot.
///
/// A move swaps two labels and takes the gap to the other colour, so both change together.
pub fn order_weights(bay: &Bay) -> FeatureSet {
    let slots = bay.slots();
    let features = Features::new(&vec![slots; slots]);
    let atom = |variable, value| Atom { variable, value };
    let mut weights = FeatureSet::empty(features.count());
    for slot in 0..slots {
        let (row, column) = bay.place(slot);
        if (row + column) % 2 == 1 {
            weights.insert(features.single(atom(slot, 0)));
        }
        for later in slot + 1..slots {
            for larger in 0..slots {
                for smaller in 0..larger {
                    weights.extend(features.mixed(atom(slot, larger), atom(later, smaller)));
                }
            }
        }
    }
    weights
}

//! Pair lists made by hand: what is wrong with one, and its largest good sublist.

use crate::feature_set::FeatureSet;
use crate::operators::Pairing;
use crate::task::Task;

/// Why a list of pairs isn't good.
#[derive(Clone, Copy, Debug, PartialEq, Eq)]
pub enum PairFault {
    /// The least pair that the start holds.
    Held(usize),
    /// The least unclosed pair of the first operator that the list isn't closed under.
    Unclosed { pair: usize, operator: usize },
}

/// The first fault of a task's list, the start judged first; a good list has none.
pub fn first_fault(task: &Task) -> Option<PairFault> {
    let pairing = task.pairing();
    if let Some(pair) = pairing.held(&task.start).first() {
        return Some(PairFault::Held(*pair));
    }
    let mut operators = task.unrepeated();
    let (operator, open) = operators.find(|(_, each)| !pairing.closed(each))?;
    let pair = pairing.unclosed(open)[0];
    Some(PairFault::Unclosed { pair, operator })
}

/// All pairs at fault in some list beside a task's start and operators.
fn at_fault(task: &Task, pairing: &Pairing) -> Vec<usize> {
    let mut pairs = pairing.held(&task.start);
    for (_, operator) in task.unrepeated() {
        if !pairing.closed(operator) {
            pairs.extend(pairing.unclosed(operator));
        }
    }
    pairs
}

/// The largest good sublist of a task's pairs.
///
/// A pair at fault is in no good sublist: a sublist excuses no pair and idles no operator that
/// the whole list doesn't. So all of them are dropped, and the rest is judged from the beginning.
pub fn largest_good(task: &Task) -> FeatureSet {
    let mut pairing = task.pairing();
    loop {
        let pairs = at_fault(task, &pairing);
        if pairs.is_empty() {
            return pairing.listed;
        }
        for pair in pairs {
            pairing.listed.remove(pair);
        }
    }
}

/// The task with only the largest good sublist of its pairs.
pub fn mended(task: &Task) -> Task {
    Task {
        pairs: largest_good(task).members(),
        ..task.clone()
    }
}

/// The pairs that mending drops.
pub fn dropped(task: &Task) -> FeatureSet {
    let mut dropped = task.pairing().listed;
    dropped.combine(&largest_good(task));
    dropped
}

//! When weights separate, and the checker's verdict.

use crate::feature_set::FeatureSet;
use crate::features::Features;
use crate::kinds::Kind;
use crate::operators::{
    change_from, combined_states, deviating_states, few_states, Operator, Pairing,
};
use crate::places::{read_both, read_both_partial, Fault};
use crate::task::Task;

/// The checker's answer for an accepted task and weight file.
#[derive(Clone, Copy, Debug, PartialEq, Eq)]
pub enum Verdict {
    Accepted,
    EndsAlike,
    /// The least operator that breaks, counted from 0 with idle ones.
    Operator(usize),
}

/// The parity of a state: whether the number of listed features true in it is odd.
pub fn odd(features: &Features, weights: &FeatureSet, state: &[usize]) -> bool {
    let listed = weights.members();
    let held = |number: &&usize| features.feature(**number).holds(state);
    listed.iter().filter(held).count() % 2 == 1
}

/// Whether an operator keeps parity from every considered state, by trying each one.
pub fn keeps_by_states(pairing: &Pairing, operator: &Operator, weights: &FeatureSet) -> bool {
    let features = &pairing.features;
    pairing.idle(operator)
        || combined_states(&pairing.considered_values(operator))
            .iter()
            .all(|state| {
                odd(features, weights, state) == odd(features, weights, &operator.applied(state))
            })
}

/// The same, by the changes from a base state and its deviations.
pub fn keeps_by_changes(pairing: &Pairing, operator: &Operator, weights: &FeatureSet) -> bool {
    pairing.idle(operator) || {
        let states = deviating_states(&pairing.considered_values(operator));
        let mut changes = states
            .iter()
            .map(|state| change_from(pairing, operator, state));
        changes.all(|change| !change.meets_oddly(weights))
    }
}

fn keeps(pairing: &Pairing, operator: &Operator, weights: &FeatureSet) -> bool {
    if few_states(&pairing.considered_values(operator)) {
        keeps_by_states(pairing, operator, weights)
    } else {
        keeps_by_changes(pairing, operator, weights)
    }
}

/// Judges the ends first, then the operators in order.
pub fn verdict(task: &Task, weights: &FeatureSet) -> Verdict {
    let pairing = task.pairing();
    let features = &pairing.features;
    if odd(features, weights, &task.start) == odd(features, weights, &task.goal) {
        return Verdict::EndsAlike;
    }
    let mut operators = task.unrepeated();
    match operators.find(|(_, each)| !keeps(&pairing, each, weights)) {
        Some((place, _)) => Verdict::Operator(place),
        None => Verdict::Accepted,
    }
}

pub fn separates(task: &Task, weights: &FeatureSet) -> bool {
    verdict(task, weights) == Verdict::Accepted
}

/// The verdict on a task file and a weight file of the kind that is due.
pub fn judged(due: Kind, task: &[u8], weights: &[u8]) -> Result<Verdict, Fault> {
    let (task, weights) = read_both(due, task, weights)?;
    Ok(verdict(&task, &weights))
}

/// The same on a partial file, built by the letter.
pub fn judged_partial(due: Kind, partial: &[u8], weights: &[u8]) -> Result<Verdict, Fault> {
    let (task, weights) = read_both_partial(due, partial, weights)?;
    Ok(verdict(&task, &weights))
}

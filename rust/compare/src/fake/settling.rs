//! Slots that postponed clearing leaves unreduced, or not all there.

use super::faults::{planted, planted_fault, Fault::*};
use crate::pending::Course;
use reference::feature_set::FeatureSet;
use reference::forced::slots;
use reference::operators::{conditions, Operator};
use reference::task::Task;
use reference::workspace::Workspace;

/// From so many features on, slots stay pending beyond one operator.
const MANY_FEATURES: usize = 64;

const MANY_OPERATORS: usize = 20;

/// The indices of the slots that are filled.
fn filled(slots: &[FeatureSet]) -> Vec<usize> {
    let filled = |index: &usize| !slots[*index].is_empty();
    (0..slots.len()).filter(filled).collect()
}

/// Adds the last filled slot to the one before, which gets its index; the weights stay the same.
fn keep_index(slots: &mut [FeatureSet]) {
    if let [.., earlier, last] = filled(slots)[..] {
        let last = slots[last].clone();
        slots[earlier].combine(&last);
    }
}

/// Empties a slot in the middle of those that are filled.
fn leave_out(slots: &mut [FeatureSet]) {
    let filled = filled(slots);
    if let Some(index) = filled.get(filled.len() / 2) {
        slots[*index] = FeatureSet::empty(slots.len());
    }
}

/// Leaves the slots that were filled before others came as they were then.
fn leave_uncleared(slots: &mut [FeatureSet], before: &[FeatureSet]) {
    for (slot, earlier) in slots.iter_mut().zip(before) {
        if !earlier.is_empty() {
            slot.clone_from(earlier);
        }
    }
}

/// The slots as they are where they were settled for the last time before the end.
fn settled_on_the_way(task: &Task) -> Vec<FeatureSet> {
    let pairing = task.pairing();
    let count = pairing.features.count();
    let mut course = Course::new(count);
    let (mut all, mut settled) = (Vec::new(), 0);
    for operator in &task.operators {
        let rows = conditions(&pairing, operator);
        course.take(&rows);
        all.extend(rows);
        if course.pending == 0 {
            settled = all.len();
        }
    }
    slots(count, &all[..settled])
}

/// Spoils the slots of an opened task.
pub fn spoil_opening(task: &Task, slots: &mut [FeatureSet]) {
    match planted_fault() {
        IndexKept => keep_index(slots),
        IndexKeptAmongMany if slots.len() >= MANY_FEATURES => keep_index(slots),
        SlotLeftOut if task.operators.len() >= MANY_OPERATORS => leave_out(slots),
        LastSettlingLeftOut => leave_uncleared(slots, &settled_on_the_way(task)),
        _ => {}
    }
}

/// A built task without its forgetting operators: those lead to a variable's last value.
fn unforgetting(task: &Task) -> Task {
    let mut task = task.clone();
    let own = |operator: &Operator| {
        let mut entries = operator.entries.iter();
        entries.all(|entry| entry.after + 1 < task.sizes[entry.variable])
    };
    task.operators.retain(own);
    task
}

/// Spoils the slots of an opened partial file.
pub fn spoil_partial_opening(task: &Task, slots: &mut [FeatureSet]) {
    let before = match planted_fault() {
        LastPartialSettlingLeftOut => settled_on_the_way(task),
        ForgettingUnsettled => Workspace::of(&unforgetting(task)).slots,
        _ => return,
    };
    leave_uncleared(slots, &before);
}

/// Spoils the slots of words to which an operator was added.
pub fn spoil_edit(words: &mut [u64], before: &[u64]) {
    if !planted(IndexKeptByEdit) && !planted(EditUnsettled) {
        return;
    }
    let read = |words: &[u64]| Workspace::read(words).expect("edited words are well formed");
    let (mut edited, before) = (read(words), read(before));
    if planted(EditUnsettled) {
        leave_uncleared(&mut edited.slots, &before.slots);
    } else {
        keep_index(&mut edited.slots);
    }
    let spoilt = edited.words();
    words[..spoilt.len()].copy_from_slice(&spoilt);
}

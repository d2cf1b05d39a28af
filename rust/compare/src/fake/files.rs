//! The checker and openings with faults.

use super::faults::{planted, planted_fault, Fault::*};
use super::forms::misread;
use super::kinds::task_from;
use super::limits::{read_both, reader, Files};
use super::settling::spoil_opening;
use reference::calls::{broken, denied, done, refused};
use reference::feature_set::FeatureSet;
use reference::features::{Atom, Feature};
use reference::forced::slots;
use reference::kinds::Kind;
use reference::limits::{BEFORE, NOW};
use reference::numbers::Reader;
use reference::operators::{
    changes_from, combined_states, conditions, deviating_states, few_states, Operator, Pairing,
};
use reference::refusal::Refusal;
use reference::separation::{keeps_by_changes, verdict, Verdict};
use reference::task::{read_numbers, Task};
use reference::weights::read_weights;
use reference::workspace::{words_due, Workspace};
use std::ops::{Range, RangeInclusive};

/// The number that begins at a place, as far as it is there.
pub fn number_at(bytes: &[u8], place: usize) -> Range<usize> {
    let more = bytes.iter().skip(place).take(NOW.groups - 1);
    let more = more.take_while(|byte| **byte >= 128).count();
    place..bytes.len().min(place + more + 1)
}

/// A number without needless groups, if it has so many groups in all.
fn shortest(form: &[u8], groups: RangeInclusive<usize>) -> Vec<u8> {
    let mut form = form.to_vec();
    while groups.contains(&form.len()) && form.ends_with(&[0]) {
        form.pop();
        form.iter_mut()
            .last()
            .into_iter()
            .for_each(|byte| *byte &= 0x7F);
    }
    form
}

/// A file in which numbers of so many groups have none that is needless.
fn shortened(bytes: &[u8], groups: RangeInclusive<usize>) -> Vec<u8> {
    let mut shorter = Vec::new();
    let mut place = 0;
    while place < bytes.len() {
        let form = number_at(bytes, place);
        place = form.end;
        shorter.extend(shortest(&bytes[form], groups.clone()));
    }
    shorter
}

/// A file up to the end of its last operator.
pub fn without_left_over(bytes: &[u8]) -> &[u8] {
    let mut length = bytes.len();
    while read_numbers(&bytes[..length]) == Err(Refusal::LeftOver) {
        length -= 1;
    }
    &bytes[..length]
}

/// The task of a file, read as leniently as the planted fault says.
fn lenient_task(bytes: &[u8]) -> Result<Task, Refusal> {
    let read = |bytes: &[u8]| task_from(Files::Tasks, &mut reader(Files::Tasks, bytes));
    let read = match planted_fault() {
        LongForms => read(&shortened(bytes, 2..=3)),
        NeedlessSecondPasses => read(&shortened(bytes, 2..=2)),
        NeedlessThirdPasses => read(&shortened(bytes, 3..=3)),
        LeftOverPasses => read(without_left_over(bytes)),
        _ => read(bytes),
    };
    if planted(AfterExcuses) && read == Err(Refusal::NotClosed) {
        return lenient_pairs(bytes).ok_or(Refusal::NotClosed);
    }
    read
}

/// A task that is refused only for pairs of an after atom and an unnamed one.
fn lenient_pairs(bytes: &[u8]) -> Option<Task> {
    let task = read_numbers(bytes).ok()?;
    let pairing = task.pairing();
    let excused = |operator: &Operator| {
        pairing.idle(operator) || {
            let afters = operator.after_atoms();
            let paired = |one: &Atom| afters.iter().any(|other| pairing.paired(*one, *other));
            !afters.iter().any(paired)
        }
    };
    let all = task.operators.iter().all(excused);
    all.then_some(task)
}

/// The numbers of a file up to its end, or to the first that is badly formed.
pub fn numbers_of(bytes: &[u8]) -> Vec<usize> {
    let mut reader = Reader::new(bytes);
    let mut numbers = Vec::new();
    while let Ok(number) = reader.number() {
        numbers.push(number as usize);
    }
    numbers
}

pub fn check(due: Kind, task: &[u8], weights: &[u8]) -> u64 {
    if planted(WeightsFirst) {
        if let Err(refusal) = read_weights(due, weights, NOW.features) {
            return refused(refusal);
        }
    }
    let files = [(Files::Tasks, task), (Files::Weights, weights)];
    let (task, weights) = match read_both(due, files) {
        Ok(both) => both,
        Err(fault) => return refused(misread([task, weights], &fault)),
    };
    match verdict(&task, &weights) {
        _ if planted(AllEndsAlike) => denied(),
        Verdict::Accepted => done(0),
        Verdict::EndsAlike if planted(AcceptsAlike) => done(0),
        Verdict::EndsAlike if planted(OperatorsBeforeEnds) => broken_first(&task, &weights),
        Verdict::EndsAlike => denied(),
        Verdict::Operator(_) if planted(OperatorAsAlike) => denied(),
        Verdict::Operator(place) => broken(place_of_break(&task, &weights, place)),
    }
}

/// The answer to weights whose ends are alike, by the first operator that breaks.
fn broken_first(task: &Task, weights: &FeatureSet) -> u64 {
    let pairing = task.pairing();
    let mut operators = task.operators.iter();
    let place = operators.position(|operator| !keeps_by_changes(&pairing, operator, weights));
    place.map_or(denied(), broken)
}

fn place_of_break(task: &Task, weights: &FeatureSet, place: usize) -> usize {
    let pairing = task.pairing();
    let breaks = |operator| !keeps_by_changes(&pairing, operator, weights);
    if planted(LastOperator) {
        return task.operators.iter().rposition(breaks).unwrap_or(place);
    }
    if planted(CountsLiveOperators) {
        let earlier = &task.operators[..place];
        return earlier.iter().filter(|each| !pairing.idle(each)).count();
    }
    if planted(OperatorInSixteenBits) {
        return place % (1 << 16);
    }
    place
}

fn faulty_conditions(pairing: &Pairing, operator: &Operator) -> Vec<FeatureSet> {
    let unpaired = Pairing::new(pairing.features.sizes(), &[]);
    if pairing.idle(operator) {
        return if planted(CountsIdle) {
            conditions(&unpaired, operator)
        } else {
            Vec::new()
        };
    }
    let values = pairing.considered_values(operator);
    match planted_fault() {
        AllPossible => conditions(&unpaired, operator),
        OneState => changes_from(pairing, operator, &deviating_states(&values)[..1]),
        PairedStatesLeftOut if few_states(&values) => {
            let mut states = combined_states(&values);
            states.retain(|state| !pairing.held_by(state));
            changes_from(pairing, operator, &states)
        }
        NamedOnly => named_only(pairing, operator),
        _ => conditions(pairing, operator),
    }
}

/// Conditions without the features that reach an unnamed variable.
fn named_only(pairing: &Pairing, operator: &Operator) -> Vec<FeatureSet> {
    let named = |number: &usize| match pairing.features.feature(*number) {
        Feature::Single(_) => true,
        Feature::Mixed(one, other) => {
            operator.names(one.variable) && operator.names(other.variable)
        }
    };
    let count = pairing.features.count();
    let mut changes = conditions(pairing, operator);
    for change in &mut changes {
        let members: Vec<usize> = change.members().into_iter().filter(named).collect();
        *change = FeatureSet::of(count, &members);
    }
    changes
}

/// Joins each slot with a later one that it may not contain.
fn unreduce(slots: &mut [FeatureSet]) {
    for index in 1..slots.len() {
        let (earlier, later) = slots.split_at_mut(index);
        let slot = &mut earlier[index - 1];
        if !slot.is_empty() {
            slot.combine(&later[0]);
        }
    }
}

/// Leaves out the features that no task had before.
fn cut(set: &mut FeatureSet) {
    for member in set.members() {
        if member >= BEFORE.features {
            set.remove(member);
        }
    }
}

pub fn open(task: &[u8], room: &mut [u64]) -> u64 {
    let long_enough = |task: &Task| room.len() >= words_due(&task.sizes);
    let read = match lenient_task(task) {
        Ok(task) if !long_enough(&task) => Err(Refusal::Room),
        read => read,
    };
    let task = match read {
        Ok(task) => task,
        Err(refusal) => {
            if planted(SpoilsRefused) {
                room.fill(0);
            }
            return match (planted_fault(), refusal) {
                (RefusedAsOpened, _) => done(refusal.number() as usize),
                (OpeningRoomAsWorkspace, Refusal::Room) => refused(Refusal::Workspace),
                _ => refused(refusal),
            };
        }
    };
    let pairing = task.pairing();
    let all: Vec<FeatureSet> = task
        .operators
        .iter()
        .flat_map(|operator| faulty_conditions(&pairing, operator))
        .collect();
    let mut workspace = Workspace::of(&task);
    workspace.slots = slots(pairing.features.count(), &all);
    match planted_fault() {
        UnreducedSlots => unreduce(&mut workspace.slots),
        OpenedPairsAsBefore => cut(&mut workspace.pairs),
        OpenedSlotsAsBefore => workspace.slots.iter_mut().for_each(cut),
        _ => spoil_opening(&task, &mut workspace.slots),
    }
    let words = workspace.words();
    room[..words.len()].copy_from_slice(&words);
    if planted(WritesPastDue) && room.len() > words.len() {
        room[words.len()] = 0;
    }
    done(words.len())
}

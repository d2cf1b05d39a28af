//! Calls on a workspace with faults.

use super::faults::{planted, planted_fault, Fault::*};
use super::settling::spoil_edit;
use super::NO_ROOM;
use reference::calls::{self, denied, done, refused};
use reference::feature_set::{words_for, FeatureSet};
use reference::features::{count_features, Features};
use reference::forced::{generators, slots};
use reference::limits::{BEFORE, NOW};
use reference::refusal::Refusal;
use reference::workspace::{words_due, Record, Workspace};

/// Words made good where the planted fault would not see what is wrong with them.
fn mended_words(words: &[u64]) -> Vec<u64> {
    mend(words).unwrap_or(words.to_vec())
}

fn numbers(words: &[u64]) -> Vec<usize> {
    words.iter().map(|word| *word as usize).collect()
}

/// The sizes that words begin with, whatever they are.
fn said_sizes(words: &[u64]) -> Option<Vec<usize>> {
    let variables = usize::try_from(*words.first()?).ok()?;
    Some(numbers(words[1..].get(..variables)?))
}

/// The sizes of words that are long enough for a workspace of these.
fn sizes_of(words: &[u64]) -> Option<Vec<usize>> {
    let sizes = said_sizes(words)?;
    let in_range = !sizes.is_empty() && sizes.iter().all(|size| (1..=64).contains(size));
    (in_range && words.len() >= words_due(&sizes)).then_some(sizes)
}

/// The answer to words whose sizes or features are judged by another limit than is due.
fn misjudged(words: &[u64]) -> Option<u64> {
    if planted(LargeSizePasses) && said_sizes(words)?.contains(&65) {
        return Some(done(0));
    }
    let features = count_features(&sizes_of(words)?);
    match planted_fault() {
        WorkspaceAsBefore if features > BEFORE.features => Some(refused(Refusal::Workspace)),
        WorkspaceOneMore if features == NOW.features + 1 => Some(done(0)),
        _ => None,
    }
}

fn mend(words: &[u64]) -> Option<Vec<u64>> {
    let sizes = sizes_of(words)?;
    let variables = sizes.len();
    let states = numbers(&words[1 + variables..1 + 3 * variables]);
    let features = Features::new(&sizes);
    let (count, width) = (features.count(), words_for(features.count()));
    let mut words = words.to_vec();
    let (pairs, slots) = words[1 + 3 * variables..].split_at_mut(width);
    let start = &states[..variables];
    let drop_pairs = |pairs: &mut [u64], dropped: &dyn Fn(usize) -> bool| {
        for number in (0..count).filter(|number| dropped(*number)) {
            pairs[number / 64] &= !(1 << (number % 64));
        }
    };
    match planted_fault() {
        SinglesPass => drop_pairs(pairs, &|number| number < features.singles()),
        HeldPairsPass => drop_pairs(pairs, &|number| features.feature(number).holds(start)),
        GoalUnseen => words[1 + 2 * variables..1 + 3 * variables].fill(0),
        UnusedBitsPass if !count.is_multiple_of(64) => {
            let lasts = slots.iter_mut().take(width * count).skip(width - 1);
            for word in lasts.step_by(width).chain(pairs.last_mut()) {
                *word &= (1 << (count % 64)) - 1;
            }
        }
        UnreducedPass => reduce_words(slots, count),
        _ => {}
    }
    Some(words)
}

/// Reduces stored slots that have the right least members.
fn reduce_words(words: &mut [u64], count: usize) {
    let width = words_for(count);
    let stored = words[..width * count].chunks(width);
    let stored: Vec<FeatureSet> = stored.map(FeatureSet::from_words).collect();
    let fits = |(index, slot): (usize, &FeatureSet)| {
        slot.least().is_none_or(|least| least == index)
            && slot.highest().is_none_or(|highest| highest < count)
    };
    if stored.iter().enumerate().all(fits) {
        let reduced = slots(count, &stored);
        for (place, slot) in reduced.iter().enumerate() {
            words[place * width..][..width].copy_from_slice(slot.words());
        }
    }
}

pub fn find(workspace: &[u64], room: &mut [u64]) -> u64 {
    if let Some(answer) = misjudged(workspace) {
        return answer;
    }
    let workspace = &mended_words(workspace);
    let before = room.to_vec();
    let result = calls::find(workspace, room);
    if result == NO_ROOM && planted(FindingRoomAsWorkspace) {
        return refused(Refusal::Workspace);
    }
    if result == done(0) && planted(SeparatedAsNone) {
        return denied();
    }
    if planted(AnswerAsBefore) {
        keep_later_words(room, &before);
    }
    if result == NO_ROOM && planted(NoneWithoutRoom) {
        let none = Workspace::read(workspace).is_ok_and(|read| read.find().is_none());
        return if none { denied() } else { result };
    }
    if result == denied() && planted(NoneClears) {
        room.fill(0);
    }
    if result == done(0) && planted(NotLeast) {
        lengthen(workspace, room);
    }
    result
}

/// Adds a list that meets all conditions and doesn't part the ends.
fn lengthen(workspace: &[u64], room: &mut [u64]) {
    let workspace = Workspace::read(workspace).expect("it was read before");
    let count = workspace.slots.len();
    let features = workspace.pairing().features;
    let ends = features.changed(&workspace.start, &workspace.goal);
    let meeting = generators(count, &workspace.slots);
    let live = (0..count).filter(|number| meeting.live(*number));
    let mut lists = live.map(|number| meeting.list(number));
    if let Some(list) = lists.find(|list| !list.meets_oddly(&ends)) {
        for (word, more) in room.iter_mut().zip(list.words()) {
            *word ^= more;
        }
    }
}

/// Brings back the words of a set that no set had before.
fn keep_later_words(set: &mut [u64], before: &[u64]) {
    let words = set.iter_mut().zip(before).skip(BEFORE.features / 64);
    words.for_each(|(word, kept)| *word = *kept);
}

/// Brings back those words of all slots.
fn keep_later_slots(workspace: &mut [u64], before: &[u64]) {
    let Some(sizes) = sizes_of(before) else {
        return;
    };
    let width = words_for(count_features(&sizes));
    let slots = 1 + 3 * sizes.len() + width;
    let sets = workspace[slots..].chunks_mut(width);
    for (set, kept) in sets.zip(before[slots..].chunks(width)) {
        keep_later_words(set, kept);
    }
}

pub fn add_operator(workspace: &mut [u64], record: &Record) -> u64 {
    if let Some(answer) = misjudged(workspace) {
        return answer;
    }
    let before = workspace.to_vec();
    let mut record = record.clone();
    if planted(BeforesForAfters) {
        record.afters.clone_from(&record.befores);
    }
    let result = calls::add_operator(workspace, &record);
    if result == done(0) {
        spoil_edit(workspace, &before);
    }
    if planted(DoneAsNone) && result == done(0) {
        return denied();
    }
    if planted(UnclosedAdded) && result == refused(Refusal::NotClosed) {
        return done(0);
    }
    if planted(EditAsBefore) {
        keep_later_slots(workspace, &before);
    }
    if planted(IdleEdit) {
        workspace.copy_from_slice(&before);
    }
    let past = record.variables.iter().skip(record.count as usize);
    if planted(JudgesPastCount) && result == done(0) && past.into_iter().any(|each| *each > 64) {
        workspace.copy_from_slice(&before);
        return refused(Refusal::Range);
    }
    result
}

pub fn replace_start(workspace: &mut [u64], values: &[u64]) -> u64 {
    if let Some(answer) = misjudged(workspace) {
        return answer;
    }
    let result = calls::replace_start(workspace, values);
    let held = result == refused(Refusal::StartHoldsPair);
    if held && (planted(StartHoldsPair) || planted(RefusedStartStays)) {
        let place = 1 + values.len();
        workspace[place..place + values.len()].copy_from_slice(values);
    }
    if held && planted(StartHoldsPair) {
        return done(0);
    }
    result
}

pub fn replace_goal(workspace: &mut [u64], values: &[u64]) -> u64 {
    if let Some(answer) = misjudged(workspace) {
        return answer;
    }
    let before = workspace.to_vec();
    let result = calls::replace_goal(workspace, values);
    if planted(AnyGoalTaken) && result == refused(Refusal::Range) {
        return done(0);
    }
    if planted(GoalHoldsNoPair) && result == done(0) {
        let read = Workspace::read(workspace).expect("an edit keeps it well formed");
        if read.pairing().held_by(&read.goal) {
            workspace.copy_from_slice(&before);
            return refused(Refusal::StartHoldsPair);
        }
    }
    result
}

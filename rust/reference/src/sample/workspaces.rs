//! Random workspaces that no opening made, damage to workspaces, and operands of edits.

use super::tasks::{operator, pairs, state};
use super::Generator;
use crate::feature_set::{words_for, FeatureSet};
use crate::features::{count_features, Features};
use crate::operators::{Entry, Operator};
use crate::workspace::{Record, Workspace};

/// Slots of the reduced shape that need come from no operator.
fn loose_slots(generator: &mut Generator, count: usize) -> Vec<FeatureSet> {
    let fullness = generator.choose(&[2, 3, 10, 100]);
    let filled: Vec<bool> = (0..count).map(|_| generator.once_in(fullness)).collect();
    let mut slots = vec![FeatureSet::empty(count); count];
    for index in (0..count).filter(|index| filled[*index]) {
        slots[index].insert(index);
        let higher = (index + 1..count).filter(|member| !filled[*member]);
        let members: Vec<usize> = higher.filter(|_| generator.once_in(3)).collect();
        slots[index].extend(members);
    }
    slots
}

/// A well formed workspace made by hand.
pub fn foreign_workspace(generator: &mut Generator, sizes: &[usize]) -> Workspace {
    let features = Features::new(sizes);
    let start = state(generator, sizes);
    let mut pairs = pairs(generator, &features);
    pairs.retain(|pair| !features.feature(*pair).holds(&start));
    Workspace {
        pairs: FeatureSet::of(features.count(), &pairs),
        slots: loose_slots(generator, features.count()),
        goal: state(generator, sizes),
        sizes: sizes.to_vec(),
        start,
    }
}

/// Words that are wrong in some header place, or far too large anywhere.
const BAD_WORDS: [u64; 8] = [0, 1, 2, 64, 65, 1 << 32, 1 << 63, u64::MAX];

/// Where the parts of a workspace begin.
struct Parts {
    pairs: usize,
    slots: usize,
    width: usize,
    count: usize,
}

fn parts(sizes: &[usize]) -> Parts {
    let count = count_features(sizes);
    let pairs = 1 + 3 * sizes.len();
    let width = words_for(count);
    Parts {
        pairs,
        slots: pairs + width,
        width,
        count,
    }
}

/// Lets one filled slot contain the index of another.
fn overlap_slots(generator: &mut Generator, words: &mut [u64], parts: &Parts) {
    let slot = |index: usize| parts.slots + index * parts.width;
    let filled = |index: &usize| {
        words[slot(*index)..][..parts.width]
            .iter()
            .any(|word| *word != 0)
    };
    let filled: Vec<usize> = (0..parts.count).filter(filled).collect();
    if filled.len() < 2 {
        return;
    }
    let later = generator.between(1, filled.len() - 1);
    let earlier = filled[generator.below(later)];
    let index = filled[later];
    words[slot(earlier) + index / 64] |= 1 << (index % 64);
}

/// Changes one bit from one place to another, the latter not included.
fn flip_bit(generator: &mut Generator, words: &mut [u64], first: usize, end: usize) {
    let end = end.min(words.len());
    if first < end {
        words[generator.between(first, end - 1)] ^= 1 << generator.below(64);
    }
}

fn damage_header(generator: &mut Generator, words: &mut [u64], parts: &Parts) {
    let place = generator.below(parts.pairs.min(words.len()));
    words[place] = if generator.once_in(2) {
        generator.choose(&BAD_WORDS)
    } else {
        words[place].wrapping_add(1)
    };
}

/// Changes words, mostly so that the workspace is no longer well formed.
pub fn damage_words(generator: &mut Generator, words: &mut Vec<u64>, sizes: &[usize]) {
    let parts = parts(sizes);
    let whole = words.len();
    for _ in 0..generator.between(1, 2) {
        if words.is_empty() {
            return;
        }
        let place = generator.below(words.len());
        match generator.below(9) {
            0 => words.truncate(place),
            1 | 2 => damage_header(generator, words, &parts),
            3 => flip_bit(generator, words, parts.pairs, parts.slots),
            4 | 5 => flip_bit(generator, words, parts.slots, whole),
            6 if words.len() == whole => overlap_slots(generator, words, &parts),
            7 => words[place] = generator.word(),
            _ => {
                // Each word alone may be good, but not where it stands now.
                let other = generator.below(words.len());
                words.swap(place, other);
            }
        }
    }
}

/// A record with exactly the operator's places.
pub fn exact_record(operator: &Operator) -> Record {
    let list = |field: fn(&Entry) -> usize| {
        operator
            .entries
            .iter()
            .map(|entry| field(entry) as u64)
            .collect()
    };
    Record {
        count: operator.entries.len() as u64,
        variables: list(|entry| entry.variable),
        befores: list(|entry| entry.before),
        afters: list(|entry| entry.after),
    }
}

fn lengthen(generator: &mut Generator, list: &mut Vec<u64>) {
    let count = generator.choose(&[0, 1, 64 - list.len().min(64)]);
    list.extend(generator.words(count));
}

/// A record that may have junk past its count, or leave out zeros at a list's end.
pub fn loose_record(generator: &mut Generator, operator: &Operator) -> Record {
    let mut record = exact_record(operator);
    for list in [
        &mut record.variables,
        &mut record.befores,
        &mut record.afters,
    ] {
        if list.last() == Some(&0) && generator.once_in(2) {
            list.pop();
        } else {
            lengthen(generator, list);
        }
    }
    record
}

fn damage_list(generator: &mut Generator, list: &mut Vec<u64>) {
    if list.is_empty() {
        return;
    }
    let place = generator.below(list.len());
    match generator.below(5) {
        0 => list.truncate(place),
        1 => list[place] = generator.choose(&BAD_WORDS),
        2 => list[place] = list[place].wrapping_sub(1),
        3 if place > 0 => list.swap(place - 1, place),
        _ => list[place] = list[place].wrapping_add(1),
    }
}

/// A record with one fault or several at once, some of them harmless.
pub fn damaged_record(generator: &mut Generator, sizes: &[usize]) -> Record {
    let operator = operator(generator, sizes);
    let mut record = loose_record(generator, &operator);
    for _ in 0..generator.between(1, 3) {
        match generator.below(5) {
            0 => record.count = generator.choose(&[0, 1, 2, sizes.len() as u64 + 1, 65, u64::MAX]),
            1 => record.count = record.count.wrapping_add(1),
            2 => damage_list(generator, &mut record.variables),
            3 => damage_list(generator, &mut record.befores),
            _ => damage_list(generator, &mut record.afters),
        }
    }
    record
}

/// New values, right or wrong in length or range.
pub fn values(generator: &mut Generator, sizes: &[usize]) -> Vec<u64> {
    let mut values: Vec<u64> = state(generator, sizes)
        .into_iter()
        .map(|value| value as u64)
        .collect();
    match generator.below(8) {
        0 => values.push(generator.below(3) as u64),
        1 => values.truncate(generator.below(sizes.len())),
        2 => {
            let place = generator.below(sizes.len());
            let past = [sizes[place] as u64, u64::MAX, 1 << 32];
            values[place] = generator.choose(&past);
        }
        _ => {}
    }
    values
}

//! Task and weight files: the checker and openings.

use super::{ample_room, check_line, room, some_sizes, task};
use crate::both::Both;
use reference::calls;
use reference::feature_set::{words_for, FeatureSet};
use reference::features::count_features;
use reference::sample::damage::damaged_file;
use reference::sample::kinds;
use reference::sample::tasks::{
    loose_task, loose_weights, meeting_weights, operator, LIBRARY_EDGES, PAST_EDGES,
};
use reference::sample::Generator;
use reference::task::{read_task, Task};
use reference::weights::{weight_file, weight_numbers};
use reference::workspace::{words_due, Workspace};

/// The finder's answer, where there is one.
fn answer(task: &Task) -> Option<FeatureSet> {
    Workspace::of(task).find()
}

/// Right weights in several forms, and wrong ones close to them.
pub(super) fn some_weights(generator: &mut Generator, task: &Task) -> FeatureSet {
    let count = count_features(&task.sizes);
    match generator.below(6) {
        0 => loose_weights(generator, count),
        1 | 2 => meeting_weights(generator, task),
        3 => {
            // One feature more or less breaks some operator, or none.
            let mut weights = meeting_weights(generator, task);
            weights.toggle(generator.below(count));
            weights
        }
        4 => {
            // An answer with a list that also meets the conditions.
            let mut weights = meeting_weights(generator, task);
            weights.combine(&answer(task).unwrap_or(FeatureSet::empty(count)));
            weights
        }
        _ => answer(task).unwrap_or(FeatureSet::empty(count)),
    }
}

/// Makes the ends differ by a feature that tells them apart, so that operators are judged.
pub(super) fn part_ends(generator: &mut Generator, task: &Task, weights: &mut FeatureSet) {
    let ends = task.pairing().features.changed(&task.start, &task.goal);
    let telling = ends.members();
    if !weights.meets_oddly(&ends) && !telling.is_empty() {
        weights.toggle(generator.choose(&telling));
    }
}

/// Accepted tasks with right and wrong weights.
pub fn weights(both: &mut Both, generator: &mut Generator) {
    let mut task = task(generator);
    let mut weights = some_weights(generator, &task);
    if generator.once_in(2) {
        part_ends(generator, &task, &mut weights);
    }
    let file = kinds::file(generator, &task);
    both.check(&file, &weight_file(&weights));
    // Late operators that the weights don't know make the place of the first one tell.
    let pairing = task.pairing();
    for _ in 0..generator.between(1, 4) {
        let late = operator(generator, &task.sizes);
        if pairing.closed(&late) {
            let place = generator.between(0, task.operators.len());
            task.operators.insert(place, late);
        }
    }
    let file = kinds::file(generator, &task);
    both.check(&file, &weight_file(&weights));
    check_line(both, generator, &file, &weight_file(&weights));
}

/// Weight files with faults, sometimes next to a faulty task file.
pub fn damaged_weights(both: &mut Both, generator: &mut Generator) {
    let task = task(generator);
    let count = count_features(&task.sizes);
    let weights = loose_weights(generator, count);
    let mut numbers = weight_numbers(&weights);
    if generator.once_in(4) {
        // Features at and past the end of the range.
        let past = count + generator.below(3);
        numbers.push(past);
        numbers[0] += 1;
    }
    let file = damaged_file(generator, &numbers);
    let task = if generator.once_in(8) {
        let numbers = kinds::numbers(generator, &task);
        damaged_file(generator, &numbers)
    } else {
        kinds::file(generator, &task)
    };
    both.check(&task, &file);
    check_line(both, generator, &task, &file);
}

/// The room that a file's opening needs, or some where it is refused.
fn due(file: &[u8]) -> usize {
    read_task(file).map_or(40, |task| words_due(&task.sizes))
}

/// Task files with faults of one kind or several at once.
pub fn damaged_tasks(both: &mut Both, generator: &mut Generator) {
    let numbers = if generator.once_in(50) {
        // Too many features or just not, and values that must not be judged after too many.
        let sizes = generator.choose(&[&LIBRARY_EDGES[..], &PAST_EDGES].concat());
        kinds::fronted(generator, &[&[sizes.len()], sizes, &[0, 1, 70]].concat())
    } else {
        let sizes = some_sizes(generator);
        let task = loose_task(generator, &sizes, 4);
        kinds::numbers(generator, &task)
    };
    let file = damaged_file(generator, &numbers);
    if generator.once_in(3) {
        both.check(&file, &[1, 0]);
    } else {
        let due = due(&file);
        let room = room(generator, due);
        both.open(&file, &room);
    }
}

/// Tasks whose start may hold a pair and whose pairs may be open.
pub fn unclosed_tasks(both: &mut Both, generator: &mut Generator) {
    let sizes = some_sizes(generator);
    let mut task = loose_task(generator, &sizes, 4);
    if generator.once_in(2) {
        // A free start lets the question of closed pairs be reached.
        let features = task.pairing().features;
        let start = task.start.clone();
        task.pairs
            .retain(|pair| !features.feature(*pair).holds(&start));
    }
    let file = kinds::file(generator, &task);
    if generator.once_in(4) {
        both.check(&file, &[1, 0]);
    } else {
        let room = room(generator, words_due(&sizes));
        both.open(&file, &room);
    }
}

/// Accepted tasks in all kinds of room, what the finder says, and what the checker says to it.
pub fn openings(both: &mut Both, generator: &mut Generator) {
    let task = task(generator);
    let file = kinds::file(generator, &task);
    let due = words_due(&task.sizes);
    let narrow = room(generator, due);
    both.open(&file, &narrow);
    let ample = ample_room(generator, due);
    let opened = both.open(&file, &ample);
    let count = count_features(&task.sizes);
    let narrow = room(generator, words_for(count));
    both.find(&opened.memory, &narrow);
    let ample = ample_room(generator, words_for(count));
    let found = both.find(&opened.memory, &ample);
    if found.number == calls::done(0) {
        let weights = FeatureSet::from_words(&found.memory[..words_for(count)]);
        let verdict = both.check(&file, &weight_file(&weights));
        assert_eq!(verdict, calls::done(0), "the checker takes every answer");
    }
}

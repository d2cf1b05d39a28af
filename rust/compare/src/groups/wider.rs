//! Files past the limits that were there before bays of sixteen: more features, and numbers of three
//! bytes. Few of them are opened.

use super::files::part_ends;
use super::large::every_call;
use super::lines::print;
use super::mended;
use super::partials::past_range;
use super::places::perhaps_damaged;
use super::{byte_room, check_line, room};
use crate::both::Both;
use reference::feature_set::{words_for, FeatureSet};
use reference::features::count_features;
use reference::limits::BEFORE;
use reference::partial::{read_built, LeftOut, Partial};
use reference::sample::handmade::handmade_task;
use reference::sample::kinds;
use reference::sample::partials::{
    self, accepted_partial, completed, loose_partial, FORMER_PARTIAL_EDGES, PARTIAL_EDGES,
};
use reference::sample::tasks::{
    accepted_task, loose_task, loose_weights, operator, sizes, FORMER_EDGES, HUGE, LIBRARY_EDGES,
    NUMBER_EDGES, PAST_EDGES,
};
use reference::sample::workspaces::{exact_record, values};
use reference::sample::Generator;
use reference::weights::{weight_file, weight_numbers};
use reference::workspace::words_due;

/// Sizes about the limits of before and today's, and any between.
fn wider_sizes(generator: &mut Generator) -> Vec<usize> {
    match generator.below(6) {
        0 => generator.choose(&FORMER_EDGES).to_vec(),
        1 | 2 => generator.choose(&NUMBER_EDGES).to_vec(),
        3 | 4 => generator.choose(&LIBRARY_EDGES).to_vec(),
        _ => sizes(generator, HUGE),
    }
}

/// Features on both sides of a limit: the first that takes three bytes, or the end of the range.
fn features_at_edge(generator: &mut Generator, count: usize) -> FeatureSet {
    let edges = [BEFORE.features, BEFORE.largest() + 1, count];
    let edge = generator.choose(&edges).min(count);
    let mut weights = FeatureSet::empty(count);
    for feature in edge.saturating_sub(4)..count.min(edge + 4) {
        if generator.once_in(2) {
            weights.insert(feature);
        }
    }
    weights
}

/// Weights of all features, or of few about some edge.
fn wider_weights(generator: &mut Generator, count: usize) -> FeatureSet {
    if generator.once_in(2) {
        loose_weights(generator, count)
    } else {
        features_at_edge(generator, count)
    }
}

/// Tasks and weights, good and damaged, with every call that judges both and opens neither.
pub fn tasks(both: &mut Both, generator: &mut Generator) {
    let sizes = wider_sizes(generator);
    let task = if generator.once_in(3) {
        loose_task(generator, &sizes, 4)
    } else {
        accepted_task(generator, &sizes, 4)
    };
    let mut weights = wider_weights(generator, count_features(&sizes));
    part_ends(generator, &task, &mut weights);
    let (mut file, mut weights) = (kinds::file(generator, &task), weight_file(&weights));
    match generator.below(4) {
        0 => {
            let numbers = kinds::numbers(generator, &task);
            file = perhaps_damaged(generator, &numbers);
        }
        1 => {
            let mut numbers = weight_numbers(&wider_weights(generator, count_features(&sizes)));
            // A feature at the end of the range, or past it.
            numbers.push(count_features(&sizes) - 1 + generator.below(3));
            numbers[0] += 1;
            weights = perhaps_damaged(generator, &numbers);
        }
        _ => {}
    }
    both.check(&file, &weights);
    check_line(both, generator, &file, &weights);
    let words = room(generator, 2);
    both.display(&file, &weights, &words);
    if generator.once_in(4) {
        print(both, generator, &file);
    }
}

/// Pair lists made by hand.
pub fn lists(both: &mut Both, generator: &mut Generator) {
    let sizes = wider_sizes(generator);
    let task = handmade_task(generator, &sizes, 6);
    mended::every_call(both, generator, &task);
}

/// Sizes whose built ones are about the limits.
fn wider_partial_sizes(generator: &mut Generator) -> Vec<usize> {
    match generator.below(6) {
        0 => generator.choose(&FORMER_PARTIAL_EDGES).to_vec(),
        1 | 2 => generator.choose(&PARTIAL_EDGES).to_vec(),
        // Pairs that take two bytes take three once they are renumbered.
        3 => NUMBER_EDGES[1].to_vec(),
        4 => {
            let built = generator.choose(&NUMBER_EDGES);
            built.iter().map(|size| size - 1).collect()
        }
        _ => partials::sizes(generator, HUGE),
    }
}

/// Writes what is built of a partial file, in all kinds of room.
fn build(both: &mut Both, generator: &mut Generator, file: &[u8]) {
    let left_out = generator.choose(&[LeftOut::ByLetter, LeftOut::Lean]);
    let due = read_built(file, left_out).map_or(40, |task| task.file().len());
    let room = byte_room(generator, due);
    match left_out {
        LeftOut::Lean => both.build_partial_lean(file, &room),
        _ => both.build_partial(file, &room),
    };
}

/// Silences what a partial file is the order of, in all kinds of room.
fn silence(both: &mut Both, generator: &mut Generator, partial: &Partial) {
    let room = byte_room(generator, partial.file().len());
    let task = kinds::file(generator, &completed(partial));
    both.silence(&task, &partial.marks(), &room);
}

/// Partial files, good and damaged, with every call that opens none.
pub fn partial_files(both: &mut Both, generator: &mut Generator) {
    let sizes = wider_partial_sizes(generator);
    let partial = if generator.once_in(3) {
        loose_partial(generator, &sizes, 4)
    } else {
        accepted_partial(generator, &sizes, 4)
    };
    let file = match generator.below(6) {
        0 => past_range(generator, &partial),
        1 => perhaps_damaged(generator, &partial.numbers()),
        _ => partial.file(),
    };
    build(both, generator, &file);
    silence(both, generator, &partial);
    let task = partial.built(LeftOut::ByLetter);
    let mut weights = wider_weights(generator, count_features(&task.sizes));
    part_ends(generator, &task, &mut weights);
    let weights = weight_file(&weights);
    both.check_partial(&file, &weights);
    let room = room(generator, 2);
    both.display_partial(&file, &weights, &room);
}

/// Tasks about the limit of features, opened, edited and searched.
pub fn openings(both: &mut Both, generator: &mut Generator) {
    let sizes = if generator.once_in(2) {
        generator.choose(&LIBRARY_EDGES).to_vec()
    } else {
        sizes(generator, HUGE)
    };
    let task = accepted_task(generator, &sizes, 3);
    every_call(both, generator, &task);
}

/// Words that are a workspace without pairs or conditions if the sizes keep the limits.
fn plain_words(sizes: &[usize]) -> Vec<u64> {
    let mut words = vec![0; words_due(sizes)];
    words[0] = sizes.len() as u64;
    for (word, size) in words[1..].iter_mut().zip(sizes) {
        *word = *size as u64;
    }
    words
}

/// Words that no opening made, at the limit of features and one past it, given to every call.
pub fn words(both: &mut Both, generator: &mut Generator) {
    for sizes in [LIBRARY_EDGES[1], PAST_EDGES[0]] {
        let words = plain_words(sizes);
        let room = generator.words(words_for(count_features(sizes)));
        both.find(&words, &room);
        let record = exact_record(&operator(generator, sizes));
        both.add_operator(&words, &record);
        let values = values(generator, sizes);
        both.replace_start(&words, &values);
        both.replace_goal(&words, &values);
    }
}

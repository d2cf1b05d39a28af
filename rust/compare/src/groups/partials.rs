//! Partial files: built, opened and checked, good ones and damaged ones.

use super::files::{part_ends, some_weights};
use super::{ample_room, byte_room, room, scale};
use crate::both::Both;
use reference::calls::{denied, done};
use reference::feature_set::{words_for, FeatureSet};
use reference::features::{count_features, Features};
use reference::numbers::encode;
use reference::partial::{read_built, silenced, LeftOut, Partial};
use reference::sample::bays::{bay, shapes_within};
use reference::sample::damage::damaged_file;
use reference::sample::partials::{
    accepted_partial, loose_partial, scaled_partial, silenced_bay, silent_marks, sizes,
    FORMER_PARTIAL_EDGES, PARTIAL_EDGES, PARTIAL_PAST_EDGES,
};
use reference::sample::tasks::{loose_weights, Scale};
use reference::sample::Generator;
use reference::search::can_meet;
use reference::weights::{weight_file, weight_numbers};
use reference::workspace::words_due;

/// Few enough states to search all of them.
const SEARCHED: Scale = Scale {
    most_features: 110,
    most_variables: 4,
    most_values: 4,
    most_operators: 12,
};

fn some_sizes(generator: &mut Generator) -> Vec<usize> {
    let scale = scale(generator);
    sizes(generator, scale)
}

/// An accepted partial file.
fn partial(generator: &mut Generator) -> Partial {
    let sizes = some_sizes(generator);
    let most_operators = generator.choose(&[4, 10, 16]);
    accepted_partial(generator, &sizes, most_operators)
}

/// The bytes that a built file needs, or some where it is refused.
fn bytes_due(file: &[u8], left_out: LeftOut) -> usize {
    read_built(file, left_out).map_or(40, |task| task.file().len())
}

/// The words that an opening needs, or some where it is refused.
fn words_of(file: &[u8]) -> usize {
    read_built(file, LeftOut::ByLetter).map_or(40, |task| words_due(&task.sizes))
}

/// One of the calls on a partial file, in all kinds of room.
pub(super) fn some_call(both: &mut Both, generator: &mut Generator, file: &[u8]) {
    match generator.below(4) {
        0 => {
            both.check_partial(file, &[1, 0]);
        }
        1 => {
            let room = room(generator, words_of(file));
            both.open_partial(file, &room);
        }
        2 => {
            let room = byte_room(generator, bytes_due(file, LeftOut::ByLetter));
            both.build_partial(file, &room);
        }
        _ => {
            let room = byte_room(generator, bytes_due(file, LeftOut::Lean));
            both.build_partial_lean(file, &room);
        }
    }
}

/// A file's built task, by the letter or lean, in exactly the bytes due.
fn built_file(
    both: &mut Both,
    generator: &mut Generator,
    partial: &Partial,
    left_out: LeftOut,
) -> Vec<u8> {
    let task = partial.built(left_out).file();
    let room = generator.bytes(task.len());
    let outcome = match left_out {
        LeftOut::Lean => both.build_partial_lean(&partial.file(), &room),
        _ => both.build_partial(&partial.file(), &room),
    };
    assert_eq!(outcome.number, done(task.len()), "built files are accepted");
    outcome.memory
}

/// Accepted files in all kinds of room; opening one is opening what is built of it.
pub fn built(both: &mut Both, generator: &mut Generator) {
    let partial = partial(generator);
    let file = partial.file();
    for _ in 0..2 {
        some_call(both, generator, &file);
    }
    let task = built_file(both, generator, &partial, LeftOut::ByLetter);
    let room = ample_room(generator, words_of(&file));
    let opened = both.open_partial(&file, &room);
    let again = both.open(&task, &room);
    assert_eq!(opened, again, "a partial file opens as its built file does");
    built_file(both, generator, &partial, LeftOut::Lean);
}

/// Accepted files with right and wrong weights, and weight files with faults.
pub fn weights(both: &mut Both, generator: &mut Generator) {
    let partial = partial(generator);
    let file = partial.file();
    let task = partial.built(LeftOut::ByLetter);
    let count = count_features(&task.sizes);
    let mut weights = some_weights(generator, &task);
    if generator.once_in(2) {
        part_ends(generator, &task, &mut weights);
    }
    let verdict = both.check_partial(&file, &weight_file(&weights));
    let same = both.check(&task.file(), &weight_file(&weights));
    assert_eq!(
        verdict, same,
        "a partial file is checked as its built file is"
    );
    let mut numbers = weight_numbers(&loose_weights(generator, count));
    if generator.once_in(3) {
        // Features at and past the end of the built task's range.
        numbers.push(count - 1 + generator.below(3));
        numbers[0] += 1;
    }
    let weights = damaged_file(generator, &numbers);
    both.check_partial(&file, &weights);
}

/// From a partial file to the finder's answer and back to the checker; an order for which there is
/// an answer can't be met by the file's own operators.
pub fn answers(both: &mut Both, generator: &mut Generator) {
    let partial = scaled_partial(generator, SEARCHED);
    answer(both, generator, &partial, can_meet(&partial));
}

/// What is found by the letter and by the lean call, for an order that can be met or not.
fn answer(both: &mut Both, generator: &mut Generator, partial: &Partial, met: bool) {
    let file = partial.file();
    let due = words_of(&file);
    let count = count_features(&partial.built(LeftOut::Nothing).sizes);
    let room = ample_room(generator, due);
    let words = both.open_partial(&file, &room).memory;
    let weights = found(both, generator, &words, count);
    if let Some(weights) = &weights {
        assert_eq!(both.check_partial(&file, weights), done(0), "found");
    }
    let lean = built_file(both, generator, partial, LeftOut::Lean);
    let words = both.open(&lean, &room).memory;
    let lean_weights = found(both, generator, &words, count);
    assert!(
        !met || weights.is_none() && lean_weights.is_none(),
        "a met order is accepted"
    );
    // Weights of the lean task are mostly broken by the forgetting operators that it goes without.
    if let Some(weights) = lean_weights {
        both.check_partial(&file, &weights);
    }
}

/// The weight file of what the finder says to some words.
fn found(
    both: &mut Both,
    generator: &mut Generator,
    words: &[u64],
    count: usize,
) -> Option<Vec<u8>> {
    let room = generator.words(words_for(count));
    let found = both.find(words, &room);
    assert!(found.number <= denied(), "opened words are well formed");
    (found.number == done(0)).then(|| weight_file(&FeatureSet::from_words(&found.memory)))
}

/// A file with one number just past its range: a size, mark, value or pair.
pub(super) fn past_range(generator: &mut Generator, partial: &Partial) -> Vec<u8> {
    let mut numbers = partial.numbers();
    let variables = partial.sizes.len();
    let variable = generator.below(variables);
    let named = partial.goal_atoms();
    let goals = 1 + 3 * variables;
    match generator.below(5) {
        0 => numbers[1 + variable] = 64,
        1 => numbers[1 + variables + variable] = generator.between(2, 3),
        2 => numbers[1 + 2 * variables + variable] = partial.sizes[variable],
        3 if !partial.pairs.is_empty() => {
            let last = goals + named.len() + partial.pairs.len();
            numbers[last] = count_features(&partial.sizes) + generator.below(2);
        }
        _ if !named.is_empty() => {
            let place = generator.below(named.len());
            numbers[goals + place] = partial.sizes[named[place].variable];
        }
        _ => {}
    }
    encode(&numbers)
}

/// Partial files with faults of one kind or several at once.
pub fn damaged(both: &mut Both, generator: &mut Generator) {
    let sizes = some_sizes(generator);
    let partial = loose_partial(generator, &sizes, 4);
    let file = if generator.once_in(3) {
        past_range(generator, &partial)
    } else {
        damaged_file(generator, &partial.numbers())
    };
    some_call(both, generator, &file);
}

/// Files whose start may hold a pair and whose pairs may be open in the built task.
pub fn unclosed(both: &mut Both, generator: &mut Generator) {
    let sizes = some_sizes(generator);
    let mut partial = loose_partial(generator, &sizes, 4);
    if generator.once_in(2) {
        // A free start lets the question of closed pairs be reached.
        let features = Features::new(&partial.sizes);
        let start = partial.start.clone();
        partial
            .pairs
            .retain(|pair| !features.feature(*pair).holds(&start));
    }
    some_call(both, generator, &partial.file());
}

/// Bays of up to six slots, some of them silent, from the bay's file to what is found.
pub fn bays(both: &mut Both, generator: &mut Generator) {
    let shape = generator.choose(&shapes_within(6));
    let bay = bay(generator, shape);
    let silent = generator.below(3);
    let marks = silent_marks(generator, bay.slots(), silent);
    let partial = silenced(&bay.task(), &marks).expect("small bays keep the limits");
    let room = generator.bytes(bay.task().file().len());
    let task = both.build(&bay.file(), &room).memory;
    let room = byte_room(generator, partial.file().len());
    both.silence(&task, &marks, &room);
    some_call(both, generator, &partial.file());
    built_file(both, generator, &partial, LeftOut::ByLetter);
    answer(both, generator, &partial, can_meet(&partial));
}

/// A file that is good but for a size or its features, or one that has a bad mark after them.
fn past_limits(generator: &mut Generator) -> Vec<u8> {
    let sizes = generator.choose(&PARTIAL_PAST_EDGES);
    plain_file(generator, sizes)
}

/// A file without operators that may have a bad mark.
fn plain_file(generator: &mut Generator, sizes: &[usize]) -> Vec<u8> {
    let sizes = sizes.to_vec();
    let variables = sizes.len();
    let partial = Partial {
        sizes,
        start: vec![0; variables],
        goal: vec![None; variables],
        pairs: Vec::new(),
        operators: Vec::new(),
    };
    let mut numbers = partial.numbers();
    numbers[1 + variables] = generator.below(3);
    encode(&numbers)
}

/// Files about the limits of features, cut where these are judged or a little later, so that no call
/// has more to do.
pub fn cut_at_limits(both: &mut Both, generator: &mut Generator) {
    let edges = [&PARTIAL_EDGES[..], &PARTIAL_PAST_EDGES].concat();
    let sizes = generator.choose(&edges);
    let file = plain_file(generator, sizes);
    let length = sizes.len() + generator.between(0, 4);
    some_call(both, generator, &file[..length]);
}

/// Files at the limits of before and past today's, and bays of nine slots.
pub fn limits(both: &mut Both, generator: &mut Generator) {
    let file = match generator.below(8) {
        0 => silenced_bay(generator, (3, 3), 2).file(),
        1..=4 => past_limits(generator),
        _ => {
            let sizes = generator.choose(&FORMER_PARTIAL_EDGES);
            accepted_partial(generator, sizes, 4).file()
        }
    };
    some_call(both, generator, &file);
}

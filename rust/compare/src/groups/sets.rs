//! Sets of features in words, written as weight files.

use super::{byte_room, task};
use crate::both::Both;
use reference::calls;
use reference::feature_set::{words_for, FeatureSet};
use reference::features::count_features;
use reference::limits::{BEFORE, NOW};
use reference::sample::Generator;
use reference::weights::weight_file;
use reference::workspace::Workspace;

/// The most words that features in range take.
const MOST_WORDS: usize = NOW.features / 64;

/// As many as they took before bays of sixteen.
const FORMER_WORDS: usize = BEFORE.features / 64;

/// The words before those whose features take three bytes.
const SHORT_WORDS: usize = (BEFORE.largest() + 1) / 64;

/// Writes a set into room that is too small, exact or larger.
fn written(both: &mut Both, generator: &mut Generator, words: &[u64]) -> Option<Vec<u8>> {
    let due = weight_file(&FeatureSet::from_words(words)).len();
    let room = byte_room(generator, due);
    let mut outcome = both.weight_file(words, &room);
    if outcome.number > calls::done(room.len()) {
        return None;
    }
    outcome.memory.truncate(outcome.number as usize);
    Some(outcome.memory)
}

/// What the finder leaves in exactly the words due; the file that is written of it is accepted.
pub fn found(both: &mut Both, generator: &mut Generator) {
    let task = task(generator);
    let words = Workspace::of(&task).words();
    let room = generator.words(words_for(count_features(&task.sizes)));
    let found = both.find(&words, &room);
    let file = written(both, generator, &found.memory);
    if let (Some(file), true) = (file, found.number == calls::done(0)) {
        let verdict = both.check(&task.file(), &file);
        assert_eq!(verdict, calls::done(0), "what was found is accepted");
    }
}

/// Words with few members, many or none in each.
fn some_words(generator: &mut Generator, length: usize) -> Vec<u64> {
    let density = generator.below(4);
    let mut word = || match density {
        0 => 0,
        1 => generator.word() & generator.word() & generator.word(),
        2 => generator.word(),
        _ => u64::MAX,
    };
    (0..length).map(|_| word()).collect()
}

/// Any words whose features are in range.
pub fn any(both: &mut Both, generator: &mut Generator) {
    let most = if generator.once_in(10) {
        MOST_WORDS
    } else {
        FORMER_WORDS
    };
    let length = generator.below(most + 1);
    let mut words = some_words(generator, length);
    // Around 128 a feature's number and the count become longer.
    if length > 3 && generator.once_in(2) {
        words[3..].fill(0);
    }
    written(both, generator, &words);
}

/// Words with features around 16,384 alone, and now and then so many before them that the count is
/// about as large: there both become longer again.
pub fn long_numbers(both: &mut Both, generator: &mut Generator) {
    let mut words = vec![0; SHORT_WORDS + 2];
    if generator.once_in(3) {
        words[..SHORT_WORDS].fill(u64::MAX);
        words[generator.below(SHORT_WORDS)] &= generator.word() | generator.word();
    }
    for feature in SHORT_WORDS * 64 - 3..SHORT_WORDS * 64 + 4 {
        let kept = words[feature / 64] & !(1 << (feature % 64));
        words[feature / 64] = kept | (generator.below(2) as u64) << (feature % 64);
    }
    written(both, generator, &words);
}

/// Words up to the most features and past them, with members on either side of the limit or none.
pub fn limits(both: &mut Both, generator: &mut Generator) {
    let length = generator.between(MOST_WORDS, MOST_WORDS + 6);
    let mut words = some_words(generator, length);
    if !generator.once_in(4) {
        words[MOST_WORDS..].fill(0);
    }
    if generator.once_in(3) {
        let feature = generator.between(NOW.features - 3, 64 * length - 1);
        let feature = generator.choose(&[NOW.features - 1, NOW.features, feature]);
        if let Some(word) = words.get_mut(feature / 64) {
            *word |= 1 << (feature % 64);
        }
    }
    written(both, generator, &words);
}

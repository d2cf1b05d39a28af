//! Weight files of both kinds beside tasks of either: converted there and back, checked and shown,
//! damaged, and of the kind that isn't due.

use super::files::{part_ends, some_weights};
use super::kinds::{
    any_file, any_numbers, check, convert_weights, convert_weights_in_some_room, display,
    weight_numbers, weights_there_and_back,
};
use super::{room, scale, task};
use crate::both::Both;
use reference::feature_set::FeatureSet;
use reference::features::count_features;
use reference::kinds::Kind;
use reference::partial::{built_sizes, LeftOut};
use reference::sample::handmade::every_list;
use reference::sample::kinds::{file, kind};
use reference::sample::partials::{accepted_partial, loose_partial, sizes};
use reference::sample::tasks::loose_task;
use reference::sample::Generator;
use reference::weights::weight_file_of;

/// Weights of either kind beside tasks of either: converted there and back, checked and shown.
pub fn weights(both: &mut Both, generator: &mut Generator) {
    let task = task(generator);
    let file = file(generator, &task);
    let mut weights = some_weights(generator, &task);
    if generator.once_in(2) {
        part_ends(generator, &task, &mut weights);
    }
    let due = kind(generator);
    let came = weight_file_of(due, &weights);
    convert_weights_in_some_room(both, generator, due, [&file, &came]);
    weights_there_and_back(both, generator, &file, &weights);
    let verdicts = Kind::BOTH.map(|kind| check(both, kind, &file, &weight_file_of(kind, &weights)));
    assert_eq!(verdicts[0], verdicts[1], "both kinds separate the same");
    let words = room(generator, 2);
    display(both, due, [&file, &came], &words);
}

/// Weight files with faults, or of the kind that isn't due, now and then beside a faulty task.
pub fn damaged_weights(both: &mut Both, generator: &mut Generator) {
    let task = task(generator);
    let task_file = match generator.below(8) {
        0 => {
            let kind = kind(generator);
            let numbers = any_numbers(generator, kind);
            any_file(generator, kind, &numbers)
        }
        1 => {
            let loose = loose_task(generator, &task.sizes, 4);
            file(generator, &loose)
        }
        _ => file(generator, &task),
    };
    let kind = kind(generator);
    let numbers = weight_numbers(generator, kind, count_features(&task.sizes));
    for _ in 0..3 {
        let weights = any_file(generator, kind, &numbers);
        let due = if generator.once_in(4) {
            kind.other()
        } else {
            kind
        };
        judge_weights(both, generator, due, [&task_file, &weights]);
    }
}

/// One of the calls that read weights beside a task.
fn judge_weights(both: &mut Both, generator: &mut Generator, due: Kind, files: [&[u8]; 2]) {
    match generator.below(3) {
        0 => convert_weights_in_some_room(both, generator, due, files),
        1 => {
            check(both, due, files[0], files[1]);
        }
        _ => {
            let words = room(generator, 2);
            display(both, due, files, &words);
        }
    }
}

/// New weights beside partial files, whose own kind is one; and a mark in front of such a file.
pub fn beside_partials(both: &mut Both, generator: &mut Generator) {
    let scale = scale(generator);
    let sizes = sizes(generator, scale);
    let partial = if generator.once_in(4) {
        loose_partial(generator, &sizes, 4)
    } else {
        accepted_partial(generator, &sizes, 6)
    };
    let task = partial.built(LeftOut::ByLetter);
    let mut weights = some_weights(generator, &task);
    if generator.once_in(2) {
        part_ends(generator, &task, &mut weights);
    }
    let file = partial.file();
    let [old, new] = Kind::BOTH.map(|kind| weight_file_of(kind, &weights));
    let verdict = both.check_partial_new(&file, &new);
    assert_eq!(verdict, both.check_partial(&file, &old), "the same weights");
    let numbers = weight_numbers(generator, Kind::New, count_features(&built_sizes(&sizes)));
    let faulty = any_file(generator, Kind::New, &numbers);
    both.check_partial_new(&file, &faulty);
    let kind = kind(generator);
    let faulty = any_file(generator, Kind::Old, &partial.numbers());
    both.check_partial_new(&faulty, &weight_file_of(kind, &weights));
}

/// Every weight list of the smallest tasks, in both kinds and in room of every length.
pub fn every_weights(both: &mut Both, generator: &mut Generator) {
    let task = &every_list(&[])[0];
    let files = Kind::BOTH.map(|kind| task.file_of(kind));
    let count = count_features(&task.sizes);
    for word in 0..1 << count {
        let listed: Vec<usize> = (0..count)
            .filter(|feature| word >> feature & 1 == 1)
            .collect();
        let weights = FeatureSet::of(count, &listed);
        for due in Kind::BOTH {
            let came = weight_file_of(due, &weights);
            let file = generator.choose(&files);
            for length in 0..weight_file_of(due.other(), &weights).len() + 2 {
                let room = generator.bytes(length);
                convert_weights(both, due, [&file, &came], &room);
            }
            check(both, due, &file, &came);
        }
    }
}

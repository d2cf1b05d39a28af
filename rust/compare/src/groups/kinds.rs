//! Calls on files of either kind by the kind that is due, and files to give them.

use super::places::perhaps_damaged;
use super::{byte_room, some_sizes};
use crate::both::Both;
use reference::feature_set::FeatureSet;
use reference::kinds::Kind;
use reference::places::{read_both, read_task_file_of};
use reference::sample::kinds::{edged_task, edged_weights, miskinded_file};
use reference::sample::tasks::{loose_task, loose_weights};
use reference::sample::Generator;
use reference::task::Task;
use reference::weights::{weight_file_of, weight_numbers_of};

/// Takes a task file of some kind to the other one.
pub(super) fn convert(both: &mut Both, due: Kind, file: &[u8], room: &[u8]) -> Vec<u8> {
    match due {
        Kind::Old => both.convert_to_new(file, room).memory,
        Kind::New => both.convert_to_old(file, room).memory,
    }
}

/// The same in all kinds of room.
pub(super) fn convert_in_some_room(
    both: &mut Both,
    generator: &mut Generator,
    due: Kind,
    file: &[u8],
) {
    let read = read_task_file_of(due, file);
    let length = read.map_or(40, |task| task.file_of(due.other()).len());
    let room = byte_room(generator, length);
    convert(both, due, file, &room);
}

/// Takes a weight file of some kind to the other one, beside a task of either.
pub(super) fn convert_weights(
    both: &mut Both,
    due: Kind,
    [task, weights]: [&[u8]; 2],
    room: &[u8],
) -> Vec<u8> {
    match due {
        Kind::Old => both.weights_to_new(task, weights, room).memory,
        Kind::New => both.weights_to_old(task, weights, room).memory,
    }
}

/// The same in all kinds of room.
pub(super) fn convert_weights_in_some_room(
    both: &mut Both,
    generator: &mut Generator,
    due: Kind,
    files: [&[u8]; 2],
) {
    let read = read_both(due, files[0], files[1]);
    let length = read.map_or(4, |(_, weights)| {
        weight_file_of(due.other(), &weights).len()
    });
    let room = byte_room(generator, length);
    convert_weights(both, due, files, &room);
}

/// Checks weights of the kind that is said.
pub(super) fn check(both: &mut Both, due: Kind, task: &[u8], weights: &[u8]) -> u64 {
    match due {
        Kind::Old => both.check(task, weights),
        Kind::New => both.check_new(task, weights),
    }
}

/// Shows what is at fault beside weights of the kind that is said.
pub(super) fn display(both: &mut Both, due: Kind, [task, weights]: [&[u8]; 2], room: &[u64]) {
    match due {
        Kind::Old => both.display(task, weights, room),
        Kind::New => both.display_new(task, weights, room),
    };
}

/// Both kinds of a task, each made of the other in exactly the bytes due.
pub(super) fn there_and_back(both: &mut Both, generator: &mut Generator, task: &Task) {
    for due in Kind::BOTH {
        let came = task.file_of(due);
        let room = generator.bytes(task.file_of(due.other()).len());
        let other = convert(both, due, &came, &room);
        let room = generator.bytes(came.len());
        let back = convert(both, due.other(), &other, &room);
        assert_eq!(back, came, "there and back");
    }
}

/// Both kinds of a weight file, each made of the other in exactly the bytes due.
pub(super) fn weights_there_and_back(
    both: &mut Both,
    generator: &mut Generator,
    task: &[u8],
    weights: &FeatureSet,
) {
    for due in Kind::BOTH {
        let came = weight_file_of(due, weights);
        let room = generator.bytes(weight_file_of(due.other(), weights).len());
        let other = convert_weights(both, due, [task, &came], &room);
        let room = generator.bytes(came.len());
        let back = convert_weights(both, due.other(), [task, &other], &room);
        assert_eq!(back, came, "there and back");
    }
}

/// A file of some kind, whole or damaged, or said to be of the other.
pub(super) fn any_file(generator: &mut Generator, kind: Kind, numbers: &[usize]) -> Vec<u8> {
    if generator.once_in(8) {
        miskinded_file(kind, numbers)
    } else {
        perhaps_damaged(generator, numbers)
    }
}

/// The numbers of a task that may be refused for its pairs, with a list about its range now and then.
pub(super) fn any_numbers(generator: &mut Generator, kind: Kind) -> Vec<usize> {
    let sizes = some_sizes(generator);
    let task = loose_task(generator, &sizes, 4);
    if kind == Kind::New && generator.once_in(4) {
        edged_task(generator, &task)
    } else {
        task.numbers_of(kind)
    }
}

/// The numbers of weights of some kind, about the end of their range now and then.
pub(super) fn weight_numbers(generator: &mut Generator, kind: Kind, count: usize) -> Vec<usize> {
    if kind == Kind::New && generator.once_in(3) {
        return edged_weights(generator, count);
    }
    weight_numbers_of(kind, &loose_weights(generator, count))
}

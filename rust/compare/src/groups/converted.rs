//! Task files of both kinds: converted there and back, damaged, about the ends of their ranges, and
//! of the kind that isn't due.

use super::kept::staying;
use super::kinds::{
    any_file, any_numbers, check, convert, convert_in_some_room, convert_weights,
    convert_weights_in_some_room, display, there_and_back, weight_numbers, weights_there_and_back,
};
use super::lines::print;
use super::mended::handmade;
use super::places::perhaps_damaged;
use super::sixteen::shape;
use super::{ample_room, byte_room, check_line, mended, room, task};
use crate::both::Both;
use reference::features::count_features;
use reference::kinds::{kind_of, Kind};
use reference::numbers::encode;
use reference::sample::bays::bay;
use reference::sample::damage::bad_forms;
use reference::sample::handmade::{every_list, every_operator};
use reference::sample::kinds::{edged_task, file, fronted, kind, numbers};
use reference::sample::partials::marks;
use reference::sample::tasks::{
    accepted_task, loose_weights, sizes, HUGE, LIBRARY_EDGES, NUMBER_EDGES, PAST_EDGES, TINY,
};
use reference::sample::Generator;
use reference::task::Task;
use reference::weights::weight_file_of;
use reference::workspace::words_due;
use std::slice::from_ref;

/// Accepted tasks in all kinds of room, there and back; both kinds open to the same words.
pub fn converted(both: &mut Both, generator: &mut Generator) {
    let task = task(generator);
    let due = kind(generator);
    convert_in_some_room(both, generator, due, &task.file_of(due));
    there_and_back(both, generator, &task);
    if generator.once_in(4) {
        let room = ample_room(generator, words_due(&task.sizes));
        let [old, new] = Kind::BOTH.map(|kind| both.open(&task.file_of(kind), &room));
        assert_eq!(old, new, "both name the same task");
    }
}

/// Task files of either kind with faults, for either of the ways.
pub fn damaged(both: &mut Both, generator: &mut Generator) {
    let kind = kind(generator);
    let numbers = any_numbers(generator, kind);
    let file = any_file(generator, kind, &numbers);
    let due = if generator.once_in(4) {
        kind.other()
    } else {
        kind
    };
    convert_in_some_room(both, generator, due, &file);
}

/// Gap lists of pairs about their range, given to some call that reads a task.
pub fn edged(both: &mut Both, generator: &mut Generator) {
    let mut task = handmade(generator);
    if generator.once_in(2) {
        // Without operators no list but a held one is at fault.
        task.operators.clear();
    }
    let file = encode(&edged_task(generator, &task));
    some_call(both, generator, &file);
}

/// New tasks with faults, given to some call that reads a task.
pub fn damaged_tasks(both: &mut Both, generator: &mut Generator) {
    let numbers = any_numbers(generator, Kind::New);
    let file = any_file(generator, Kind::New, &numbers);
    some_call(both, generator, &file);
}

/// One of the calls that read a task file, and mostly what is shown of it.
fn some_call(both: &mut Both, generator: &mut Generator, file: &[u8]) {
    match generator.below(8) {
        0 => check(both, Kind::Old, file, &[1, 0]),
        1 => check(both, Kind::New, file, &[0, 1, 0]),
        2 => {
            let room = generator.words(40);
            both.open(file, &room).number
        }
        3 => {
            let variables = generator.between(1, 4);
            let marks = marks(generator, variables);
            let room = byte_room(generator, 40);
            both.silence(file, &marks, &room).number
        }
        4 => return mended::some_call(both, generator, file),
        5 => return print(both, generator, file),
        6 => return check_line(both, generator, file, &[1, 0]),
        _ => return convert_in_some_room(both, generator, Kind::New, file),
    };
    let due = kind(generator);
    let words = room(generator, 2);
    display(both, due, [file, &[0]], &words);
}

/// Bays of all sizes, their tasks in both kinds.
pub fn bays(both: &mut Both, generator: &mut Generator) {
    let shape = shape(generator, 2..=16);
    let task = bay(generator, shape).task();
    let due = kind(generator);
    convert_in_some_room(both, generator, due, &task.file_of(due));
    there_and_back(both, generator, &task);
    let weights = loose_weights(generator, count_features(&task.sizes));
    weights_there_and_back(both, generator, &task.file_of(due), &weights);
    check(
        both,
        due,
        &task.file_of(due),
        &weight_file_of(due, &weights),
    );
}

/// Sizes about the limit of features, or about that of numbers of two bytes.
fn wider_sizes(generator: &mut Generator) -> Vec<usize> {
    match generator.below(5) {
        0 | 1 => generator.choose(&NUMBER_EDGES).to_vec(),
        2 | 3 => generator.choose(&LIBRARY_EDGES).to_vec(),
        _ => sizes(generator, HUGE),
    }
}

/// Tasks of many features, whose gaps take one byte to three, good and damaged.
pub fn wider(both: &mut Both, generator: &mut Generator) {
    let sizes = wider_sizes(generator);
    let mut task = accepted_task(generator, &sizes, 2);
    if generator.once_in(2) {
        // Few pairs lie far apart.
        let times = 1 + task.pairs.len() / 3;
        task.pairs.retain(|_| generator.once_in(times));
        task.operators.clear();
    }
    there_and_back(both, generator, &task);
    let count = count_features(&sizes);
    let due = kind(generator);
    let came = file(generator, &task);
    let weights = loose_weights(generator, count);
    weights_there_and_back(both, generator, &came, &weights);
    let faulty = if due == Kind::New {
        encode(&edged_task(generator, &task))
    } else {
        perhaps_damaged(generator, &task.numbers())
    };
    convert_in_some_room(both, generator, due, &faulty);
    let numbers = weight_numbers(generator, due, count);
    let faulty = any_file(generator, due, &numbers);
    convert_weights_in_some_room(both, generator, due, [&came, &faulty]);
    check(both, due, &came, &faulty);
    let words = room(generator, 2);
    display(both, due, [&came, &faulty], &words);
}

/// Files about the limit of features, cut where these are judged or a little later.
pub fn cut_at_limits(both: &mut Both, generator: &mut Generator) {
    let edges = [&LIBRARY_EDGES[..], &PAST_EDGES].concat();
    let sizes = generator.choose(&edges);
    let behind = &[0, 0, 0][..generator.below(4)];
    let file = encode(&fronted(
        generator,
        &[&[sizes.len()], sizes, behind].concat(),
    ));
    let due = kind_of(&file);
    convert_in_some_room(both, generator, due, &file);
    convert_weights_in_some_room(both, generator, due, [&file, &[0]]);
    check(both, due, &file, &[0]);
}

/// Counts of operators of two bytes and of three behind a gap list.
pub fn many_operators(both: &mut Both, generator: &mut Generator) {
    let sizes = sizes(generator, TINY);
    let mut task = accepted_task(generator, &sizes, 4);
    let count = generator.choose(&[127, 128, 400, 16_383, 16_384]);
    let still = (0..count).map(|_| staying(generator, &sizes));
    task.operators.splice(0..0, still.collect::<Vec<_>>());
    there_and_back(both, generator, &task);
    let numbers = numbers(generator, &task);
    let file = perhaps_damaged(generator, &numbers);
    convert_in_some_room(both, generator, kind_of(&file), &file);
}

/// Every list and start of the smallest tasks with one operator, in both kinds and in room of every
/// length.
pub fn every(both: &mut Both, generator: &mut Generator) {
    for operator in every_operator() {
        for task in every_list(from_ref(&operator)) {
            for due in Kind::BOTH {
                in_rooms(both, generator, due, &task);
            }
        }
    }
}

fn in_rooms(both: &mut Both, generator: &mut Generator, due: Kind, task: &Task) {
    let file = task.file_of(due);
    for length in 0..task.file_of(due.other()).len() + 2 {
        let room = generator.bytes(length);
        convert(both, due, &file, &room);
    }
}

/// Every first byte and every bad form in front of a task and in front of weights, with what is
/// behind it, and alone.
pub fn every_first_number(both: &mut Both, generator: &mut Generator) {
    let task = &every_list(&[])[0];
    let mut fronts: Vec<Vec<u8>> = (0..=255).map(|byte| vec![byte]).collect();
    fronts.extend(
        [0, 2, 128, 16_384]
            .iter()
            .flat_map(|number| bad_forms(*number)),
    );
    fronts.push(Vec::new());
    for front in fronts {
        for behind in [&task.file()[..], &task.file()[1..], &[]] {
            let file = [&front, behind].concat();
            in_every_call(both, generator, &file);
        }
        for behind in [&[1, 7][..], &[2, 0, 6], &[]] {
            let weights = [&front, behind].concat();
            for due in Kind::BOTH {
                let files = [&file(generator, task)[..], &weights];
                convert_weights_in_some_room(both, generator, due, files);
                check(both, due, files[0], files[1]);
                let words = ample_room(generator, 2);
                display(both, due, files, &words);
            }
        }
    }
}

/// Each call that reads a task.
fn in_every_call(both: &mut Both, generator: &mut Generator, file: &[u8]) {
    for due in Kind::BOTH {
        convert_in_some_room(both, generator, due, file);
        check(both, due, file, &[0]);
        let words = ample_room(generator, 2);
        display(both, due, [file, &[0]], &words);
    }
    let room = generator.words(40);
    both.open(file, &room);
    let room = generator.bytes(40);
    both.silence(file, &[1, 0], &room);
    both.mend(file, &room);
    both.dropped(file, &room);
    both.line(file, &room);
    both.check_line(file, &[0], &room);
    let words = ample_room(generator, 2);
    both.pair_fault(file, &words);
}

/// A file of either kind cut at every length; the whole one is converted.
pub fn every_length(both: &mut Both, generator: &mut Generator) {
    let sizes = sizes(generator, TINY);
    let task = accepted_task(generator, &sizes, 3);
    let due = kind(generator);
    let file = task.file_of(due);
    let room = generator.bytes(task.file_of(due.other()).len());
    for length in 0..=file.len() {
        convert(both, due, &file[..length], &room);
    }
    let weights = loose_weights(generator, count_features(&sizes));
    let came = weight_file_of(due, &weights);
    let room = generator.bytes(weight_file_of(due.other(), &weights).len());
    for length in 0..=came.len() {
        convert_weights(both, due, [&file, &came[..length]], &room);
    }
}

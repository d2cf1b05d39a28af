//! Pair lists made by hand: mended, with what is dropped of them and what is at fault.

use super::kept::staying;
use super::{ample_room, byte_room, scale, some_sizes};
use crate::both::Both;
use reference::calls::done;
use reference::kinds::kind_of;
use reference::mending::{dropped, mended};
use reference::numbers::encode;
use reference::sample::bays::shapes_within;
use reference::sample::damage::damaged_file;
use reference::sample::handmade::{
    every_list, every_operator, handmade_bay, handmade_task, paired_sizes,
};
use reference::sample::kinds;
use reference::sample::tasks::{
    sizes, Scale, FORMER_EDGES, LARGE, LIBRARY_EDGES, PAST_EDGES, SMALL, TINY, WIDE,
};
use reference::sample::Generator;
use reference::task::{read_numbers, Task};
use reference::weights::weight_file;
use reference::workspace::words_due;
use std::slice::from_ref;

/// A task of some scale, mostly one that has two-variable features.
pub(super) fn handmade(generator: &mut Generator) -> Task {
    let sizes = if generator.once_in(20) {
        some_sizes(generator)
    } else {
        let scale = scale(generator);
        paired_sizes(generator, scale)
    };
    let most_operators = generator.choose(&[4, 10, 16]);
    handmade_task(generator, &sizes, most_operators)
}

/// The bytes that a mended file needs, or some where it is refused.
fn mended_length(file: &[u8]) -> usize {
    let kind = kind_of(file);
    read_numbers(file).map_or(40, |task| mended(&task).file_of(kind).len())
}

/// The bytes that the dropped pairs need, or some where the file is refused.
fn dropped_length(file: &[u8]) -> usize {
    read_numbers(file).map_or(4, |task| weight_file(&dropped(&task)).len())
}

fn mend(both: &mut Both, generator: &mut Generator, file: &[u8]) {
    let room = byte_room(generator, mended_length(file));
    both.mend(file, &room);
}

fn tell_dropped(both: &mut Both, generator: &mut Generator, file: &[u8]) {
    let room = byte_room(generator, dropped_length(file));
    both.dropped(file, &room);
}

/// Names what is at fault in too few words, in two, or in more.
fn tell_fault(both: &mut Both, generator: &mut Generator, file: &[u8]) {
    let length = generator.choose(&[0, 1, 2, 2, 2, 3, 6]);
    let room = generator.words(length);
    both.pair_fault(file, &room);
}

/// Every call, in all kinds of room.
pub(super) fn every_call(both: &mut Both, generator: &mut Generator, task: &Task) {
    let file = kinds::file(generator, task);
    mend(both, generator, &file);
    tell_dropped(both, generator, &file);
    tell_fault(both, generator, &file);
}

/// What is written is a good task: it opens, nothing is at fault or dropped, and it stays as it is.
fn mend_twice(both: &mut Both, generator: &mut Generator, task: &Task) {
    let kind = kinds::kind(generator);
    let room = generator.bytes(mended(task).file_of(kind).len());
    let file = both.mend(&task.file_of(kind), &room).memory;
    let again = both.mend(&file, &room).memory;
    assert_eq!(again, file, "a good list comes back");
    let room = generator.bytes(1);
    let dropped = both.dropped(&file, &room).memory;
    assert_eq!(dropped, [0], "nothing is dropped of a good list");
    let room = generator.words(2);
    let fault = both.pair_fault(&file, &room);
    assert_eq!(fault.number, done(0), "a mended list is good");
    let room = ample_room(generator, words_due(&task.sizes));
    let opened = both.open(&file, &room);
    assert!(opened.number <= done(room.len()), "a mended task opens");
    both.check(&file, &[1, 0]);
}

/// Lists of all kinds, and what becomes of them.
pub fn lists(both: &mut Both, generator: &mut Generator) {
    let task = handmade(generator);
    every_call(both, generator, &task);
    if generator.once_in(3) {
        mend_twice(both, generator, &task);
    }
}

/// Drops the pair that is named until none is: what is left is what mending keeps.
pub fn step_by_step(both: &mut Both, generator: &mut Generator) {
    let scale = generator.choose(&[TINY, SMALL]);
    let sizes = paired_sizes(generator, scale);
    let mut task = handmade_task(generator, &sizes, scale.most_operators);
    let kept = mended(&task);
    loop {
        let room = generator.words(2);
        let fault = both.pair_fault(&kinds::file(generator, &task), &room);
        if fault.number == done(0) {
            break;
        }
        task.pairs.retain(|pair| *pair as u64 != fault.memory[0]);
    }
    assert_eq!(task, kept, "each pair that is named is dropped");
}

/// Files with faults of one kind or several at once, beside whatever is at fault with the list.
pub fn damaged(both: &mut Both, generator: &mut Generator) {
    let file = if generator.once_in(50) {
        let sizes = generator.choose(&[&LIBRARY_EDGES[..], &PAST_EDGES].concat());
        encode(&kinds::fronted(
            generator,
            &[&[sizes.len()], sizes, &[0, 1, 70]].concat(),
        ))
    } else {
        let task = handmade(generator);
        let numbers = kinds::numbers(generator, &task);
        damaged_file(generator, &numbers)
    };
    some_call(both, generator, &file);
}

/// One of the calls, in all kinds of room.
pub(super) fn some_call(both: &mut Both, generator: &mut Generator, file: &[u8]) {
    match generator.below(3) {
        0 => mend(both, generator, file),
        1 => tell_dropped(both, generator, file),
        _ => tell_fault(both, generator, file),
    }
}

/// Bays of up to six slots with their own pairs, with nearly those, or with every pair.
pub fn bays(both: &mut Both, generator: &mut Generator) {
    let shape = generator.choose(&shapes_within(6));
    let task = handmade_bay(generator, shape);
    every_call(both, generator, &task);
    mend_twice(both, generator, &task);
}

/// Tasks of many variables and tasks up to the limit of before, now and then a bay of nine slots.
pub fn large(both: &mut Both, generator: &mut Generator) {
    let task = match generator.below(16) {
        0 => handmade_bay(generator, (3, 3)),
        1..=4 => {
            let sizes = generator.choose(&FORMER_EDGES);
            handmade_task(generator, sizes, 6)
        }
        5..=7 => large_task(generator, LARGE),
        _ => large_task(generator, WIDE),
    };
    every_call(both, generator, &task);
}

fn large_task(generator: &mut Generator, scale: Scale) -> Task {
    let sizes = sizes(generator, scale);
    handmade_task(generator, &sizes, scale.most_operators)
}

/// Operators behind many that keep every list closed.
pub fn late_operators(both: &mut Both, generator: &mut Generator) {
    let sizes = paired_sizes(generator, TINY);
    let mut task = handmade_task(generator, &sizes, 6);
    // Past 127 their count takes two bytes, past 16,383 three.
    let count = if generator.once_in(40) {
        generator.choose(&[16_380, 16_383, 16_384])
    } else {
        generator.choose(&[126, 127, 128, 129, 400])
    };
    let still = (0..count).map(|_| staying(generator, &sizes));
    task.operators.splice(0..0, still.collect::<Vec<_>>());
    every_call(both, generator, &task);
}

/// Every list and start of the smallest tasks: with each operator in room of every length, and with
/// every two operators in room that is long enough.
pub fn every(both: &mut Both, generator: &mut Generator) {
    let operators = every_operator();
    for one in &operators {
        for task in every_list(from_ref(one)) {
            in_rooms(both, generator, &task);
        }
        for other in &operators {
            for task in every_list(&[one.clone(), other.clone()]) {
                in_long_room(both, generator, &task);
            }
        }
    }
}

fn in_rooms(both: &mut Both, generator: &mut Generator, task: &Task) {
    let file = kinds::file(generator, task);
    for length in 0..mended_length(&file) + 2 {
        let room = generator.bytes(length);
        both.mend(&file, &room);
    }
    for length in 0..dropped_length(&file) + 2 {
        let room = generator.bytes(length);
        both.dropped(&file, &room);
    }
    for length in 0..4 {
        let room = generator.words(length);
        both.pair_fault(&file, &room);
    }
}

fn in_long_room(both: &mut Both, generator: &mut Generator, task: &Task) {
    let file = kinds::file(generator, task);
    let room = generator.bytes(file.len());
    both.mend(&file, &room);
    let room = generator.bytes(1 + task.pairs.len());
    both.dropped(&file, &room);
    let room = generator.words(2);
    both.pair_fault(&file, &room);
}

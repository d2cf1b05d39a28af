//! The finder program's line.

use super::{byte_room, some_sizes, task};
use crate::both::Both;
use reference::limits::MOST_LINE_BYTES;
use reference::line::line;
use reference::numbers::encode;
use reference::sample::damage::damaged_file;
use reference::sample::kinds;
use reference::sample::tasks::{
    accepted_task, loose_task, FORMER_EDGES, LIBRARY_EDGES, PAST_EDGES, PROGRAM_EDGES,
};
use reference::sample::Generator;

/// The line in all kinds of room.
pub(super) fn print(both: &mut Both, generator: &mut Generator, input: &[u8]) {
    let due = line(input).len();
    let room = byte_room(generator, due);
    both.line(input, &room);
}

/// Tasks that are accepted, refused for their pairs, or damaged.
pub fn lines(both: &mut Both, generator: &mut Generator) {
    let task = if generator.once_in(3) {
        let sizes = some_sizes(generator);
        loose_task(generator, &sizes, 4)
    } else {
        task(generator)
    };
    let input = if generator.once_in(4) {
        let numbers = kinds::numbers(generator, &task);
        damaged_file(generator, &numbers)
    } else {
        kinds::file(generator, &task)
    };
    print(both, generator, &input);
}

/// A good file of exactly so many bytes, filled with operators that do nothing.
fn file_of_length(generator: &mut Generator, length: usize) -> Vec<u8> {
    let front = kinds::kind(generator).front();
    let filled = length - 10 - front.len();
    let long = (0..4)
        .find(|long| (filled - 7 * long).is_multiple_of(4))
        .expect("some remainder fits");
    let short = (filled - 7 * long) / 4;
    let mut numbers = [front, vec![2, 2, 2, 0, 0, 0, 1, 0, long + short]].concat();
    numbers.extend([2, 0, 0, 0, 1, 0, 0].repeat(long));
    numbers.extend([1, 0, 1, 1].repeat(short));
    encode(&numbers)
}

/// A task of many features, with a fault that must be judged first or without.
fn wide_file(generator: &mut Generator, sizes: &[usize]) -> Vec<u8> {
    let task = if generator.once_in(2) {
        loose_task(generator, sizes, 3)
    } else {
        accepted_task(generator, sizes, 3)
    };
    kinds::file(generator, &task)
}

/// Inputs at the limits of bytes and features, and past them.
pub fn limits(both: &mut Both, generator: &mut Generator) {
    let input = match generator.below(7) {
        0 => {
            let length = generator.between(MOST_LINE_BYTES - 2, MOST_LINE_BYTES + 2);
            file_of_length(generator, length)
        }
        1 => {
            // Whatever the bytes are, there are too many or they are judged.
            let length = generator.between(MOST_LINE_BYTES - 1, MOST_LINE_BYTES + 1);
            generator.bytes(length)
        }
        2 => {
            let sizes = generator.choose(&FORMER_EDGES);
            wide_file(generator, sizes)
        }
        3 => {
            let sizes = generator.choose(&LIBRARY_EDGES);
            wide_file(generator, sizes)
        }
        4 => {
            let sizes = generator.choose(&PAST_EDGES);
            encode(&kinds::fronted(
                generator,
                &[&[sizes.len()], sizes, &[0]].concat(),
            ))
        }
        _ => {
            let sizes = generator.choose(&PROGRAM_EDGES);
            wide_file(generator, sizes)
        }
    };
    print(both, generator, &input);
}

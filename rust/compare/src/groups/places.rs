//! Where files are at fault: files of every kind with faults of every kind, what is shown of them,
//! and what the lines say.

use super::kept::staying;
use super::lines::print;
use super::{ample_room, check_line, room, scale, some_sizes, task};
use crate::both::Both;
use reference::features::count_features;
use reference::kinds::Kind;
use reference::limits::LARGEST;
use reference::numbers::encode;
use reference::partial::built_sizes;
use reference::sample::bays::{bay, mislabel, shapes, shapes_within};
use reference::sample::damage::{bad_forms, damaged_file};
use reference::sample::kinds;
use reference::sample::partials::{
    self, accepted_partial, completed, loose_partial, PARTIAL_EDGES, PARTIAL_PAST_EDGES,
};
use reference::sample::tasks::{
    accepted_task, loose_task, loose_weights, FORMER_EDGES, LIBRARY_EDGES, MEDIUM, NUMBER_EDGES,
    PAST_EDGES, SMALL, TINY,
};
use reference::sample::Generator;
use reference::weights::{weight_numbers, weight_numbers_of};

/// Weight files to stand beside a file at fault: good ones, and all kinds of bad ones.
const BESIDE: [&[u8]; 18] = [
    &[0],
    &[1, 0],
    &[1, 0, 0],
    &[],
    &[1],
    &[2, 1, 1],
    &[1, 0xFF, 0x7F],
    &[1, 0xFF, 0xFF, 0x7F],
    &[0x81, 0x00],
    &[0x81, 0x80, 0x00],
    &[1, 0x80, 0x80],
    &[1, 0x80, 0x80, 0x80],
    // As new ones.
    &[0, 0],
    &[0, 1, 0],
    &[0, 2, 0, 0],
    &[0, 2, 0, 0xFF, 0xFF, 0x7F],
    &[0, 1],
    &[0, 1, 0x80, 0x00],
];

/// Now and then a file is whole; then its pairs are judged, or bytes left over, or its weights.
pub(super) fn perhaps_damaged(generator: &mut Generator, numbers: &[usize]) -> Vec<u8> {
    match generator.below(12) {
        0 => encode(numbers),
        1 => [encode(numbers), generator.bytes(1)].concat(),
        _ => damaged_file(generator, numbers),
    }
}

/// Task files with faults, beside weights of all kinds, and what both programs say to them.
pub fn tasks(both: &mut Both, generator: &mut Generator) {
    let sizes = some_sizes(generator);
    let task = loose_task(generator, &sizes, 4);
    let numbers = kinds::numbers(generator, &task);
    let file = perhaps_damaged(generator, &numbers);
    let weights = generator.choose(&BESIDE);
    let room = room(generator, 2);
    if generator.once_in(2) {
        both.display(&file, weights, &room);
    } else {
        both.display_new(&file, weights, &room);
    }
    match generator.below(4) {
        0 => print(both, generator, &file),
        1 => check_line(both, generator, &file, weights),
        _ => {}
    }
}

/// The numbers of a weight file, now and then with a feature at the end of the range or past it.
fn some_weights(generator: &mut Generator, count: usize) -> Vec<usize> {
    let mut numbers = weight_numbers(&loose_weights(generator, count));
    if generator.once_in(4) {
        numbers.push(count - 1 + generator.below(3));
        numbers[0] += 1;
    }
    numbers
}

/// Weight files with faults beside an accepted task.
pub fn weights(both: &mut Both, generator: &mut Generator) {
    let task = task(generator);
    let file = kinds::file(generator, &task);
    let numbers = some_weights(generator, count_features(&task.sizes));
    for _ in 0..3 {
        let weights = perhaps_damaged(generator, &numbers);
        let room = room(generator, 2);
        both.display(&file, &weights, &room);
        if generator.once_in(4) {
            check_line(both, generator, &file, &weights);
        }
    }
}

fn partial_sizes(generator: &mut Generator) -> Vec<usize> {
    let scale = scale(generator);
    partials::sizes(generator, scale)
}

/// Partial files with faults, beside weights of all kinds.
pub fn partial_files(both: &mut Both, generator: &mut Generator) {
    let sizes = partial_sizes(generator);
    let numbers = loose_partial(generator, &sizes, 4).numbers();
    let file = perhaps_damaged(generator, &numbers);
    let weights = generator.choose(&BESIDE);
    let room = room(generator, 2);
    both.display_partial(&file, weights, &room);
}

/// Weight files with faults beside an accepted partial file; features count by its built task.
pub fn partial_weights(both: &mut Both, generator: &mut Generator) {
    let sizes = partial_sizes(generator);
    let file = accepted_partial(generator, &sizes, 6).file();
    let numbers = some_weights(generator, count_features(&built_sizes(&sizes)));
    for _ in 0..3 {
        let weights = perhaps_damaged(generator, &numbers);
        let room = room(generator, 2);
        both.display_partial(&file, &weights, &room);
    }
}

/// Bay files with faults, those of labels among them.
pub fn bays(both: &mut Both, generator: &mut Generator) {
    let shape = generator.choose(&shapes());
    let mut bay = bay(generator, shape);
    if generator.once_in(4) {
        mislabel(generator, &mut bay);
    }
    let file = perhaps_damaged(generator, &bay.numbers());
    let room = room(generator, 2);
    both.display_bay(&file, &room);
}

/// A call that shows what is wrong with a file, in some room.
type Show = dyn Fn(&mut Both, &[u8], &[u64]);

/// An accepted file of some kind, to be damaged.
struct Subject {
    numbers: Vec<usize>,
    show: Box<Show>,
}

impl Subject {
    fn show(&self, both: &mut Both, generator: &mut Generator, file: &[u8]) {
        let room = ample_room(generator, 2);
        (self.show)(both, file, &room);
    }
}

fn some_subject(generator: &mut Generator) -> Subject {
    // The features of a medium task take two bytes.
    let scale = generator.choose(&[TINY, SMALL, MEDIUM]);
    let sizes = partials::sizes(generator, scale);
    match generator.below(6) {
        0 => task_subject(generator, &sizes),
        1 => weights_subject(generator, &sizes),
        2 => partial_subject(generator, &sizes),
        3 => partial_weights_subject(generator, &sizes),
        4 => new_weights_subject(generator, &sizes),
        _ => bay_subject(generator),
    }
}

fn task_subject(generator: &mut Generator, sizes: &[usize]) -> Subject {
    let task = accepted_task(generator, sizes, 4);
    Subject {
        numbers: kinds::numbers(generator, &task),
        show: Box::new(|both, task, room| {
            both.display(task, &[1, 0], room);
        }),
    }
}

fn weights_subject(generator: &mut Generator, sizes: &[usize]) -> Subject {
    let task = accepted_task(generator, sizes, 4);
    let task = kinds::file(generator, &task);
    let weights = loose_weights(generator, count_features(sizes));
    Subject {
        numbers: weight_numbers(&weights),
        show: Box::new(move |both, weights, room| {
            both.display(&task, weights, room);
        }),
    }
}

fn new_weights_subject(generator: &mut Generator, sizes: &[usize]) -> Subject {
    let task = accepted_task(generator, sizes, 4);
    let task = kinds::file(generator, &task);
    let weights = loose_weights(generator, count_features(sizes));
    Subject {
        numbers: weight_numbers_of(Kind::New, &weights),
        show: Box::new(move |both, weights, room| {
            both.display_new(&task, weights, room);
        }),
    }
}

fn partial_subject(generator: &mut Generator, sizes: &[usize]) -> Subject {
    Subject {
        numbers: accepted_partial(generator, sizes, 4).numbers(),
        show: Box::new(|both, partial, room| {
            both.display_partial(partial, &[1, 0], room);
        }),
    }
}

fn partial_weights_subject(generator: &mut Generator, sizes: &[usize]) -> Subject {
    let partial = accepted_partial(generator, sizes, 4).file();
    let weights = loose_weights(generator, count_features(&built_sizes(sizes)));
    Subject {
        numbers: weight_numbers(&weights),
        show: Box::new(move |both, weights, room| {
            both.display_partial(&partial, weights, room);
        }),
    }
}

fn bay_subject(generator: &mut Generator) -> Subject {
    let shape = generator.choose(&shapes_within(6));
    Subject {
        numbers: bay(generator, shape).numbers(),
        show: Box::new(|both, bay, room| {
            both.display_bay(bay, room);
        }),
    }
}

/// A file cut at every length.
pub fn every_length(both: &mut Both, generator: &mut Generator) {
    let subject = some_subject(generator);
    let file = encode(&subject.numbers);
    for length in 0..=file.len() {
        subject.show(both, generator, &file[..length]);
    }
}

/// Each number of a file in each bad form, where the file goes on and where it ends.
pub fn every_form(both: &mut Both, generator: &mut Generator) {
    let subject = some_subject(generator);
    for (place, number) in subject.numbers.iter().enumerate() {
        let before = encode(&subject.numbers[..place]);
        let rest = encode(&subject.numbers[place + 1..]);
        for form in bad_forms(*number) {
            subject.show(both, generator, &[&before[..], &form].concat());
            subject.show(both, generator, &[&before[..], &form, &rest].concat());
        }
    }
}

/// Every byte at some places of a file, instead of what was there and in front of it.
pub fn every_byte(both: &mut Both, generator: &mut Generator) {
    let subject = some_subject(generator);
    let file = encode(&subject.numbers);
    for _ in 0..4 {
        let place = generator.below(file.len());
        let (before, rest) = file.split_at(place);
        for byte in 0..=255 {
            subject.show(both, generator, &[before, &[byte], &rest[1..]].concat());
            subject.show(both, generator, &[before, &[byte], rest].concat());
        }
    }
}

/// Rows and columns of all kinds, with labels behind them or without; where as many labels follow as
/// are due, the bay is built.
pub fn every_shape(both: &mut Both, generator: &mut Generator) {
    let edges = [127, 128, 16_383, 16_384, LARGEST];
    let sides: Vec<usize> = (0..=20).chain(edges).collect();
    for rows in &sides {
        for columns in &sides {
            for behind in [&[][..], &[0], &[0, 1, 1, 0]] {
                let room = room(generator, 2);
                both.display_bay(&encode(&[&[*rows, *columns], behind].concat()), &room);
            }
            let labels: Vec<usize> = (0..rows.saturating_mul(*columns).min(400)).collect();
            let file = encode(&[&[*rows, *columns], &labels[..], &labels].concat());
            let room = generator.bytes(9_900);
            both.build(&file, &room);
        }
    }
}

/// Sizes that have too many features or just not, cut or whole, with something behind them or nothing.
fn too_many_features(generator: &mut Generator, edges: Vec<&[usize]>) -> Vec<u8> {
    let sizes = generator.choose(&edges);
    let mut numbers = [&[sizes.len()], sizes].concat();
    match generator.below(4) {
        0 => numbers.truncate(generator.between(1, sizes.len())),
        1 => {}
        2 => numbers.push(generator.below(300)),
        _ => return [encode(&numbers), generator.choose(&bad_forms(1)).to_vec()].concat(),
    }
    encode(&numbers)
}

/// Features past their limit, by the sizes of a task and by those of a built one.
pub fn limits(both: &mut Both, generator: &mut Generator) {
    let weights = generator.choose(&BESIDE);
    let room = room(generator, 2);
    if generator.once_in(2) {
        let edges = [&LIBRARY_EDGES[..], &PAST_EDGES].concat();
        let front = encode(&kinds::kind(generator).front());
        let file = [front, too_many_features(generator, edges)].concat();
        both.display(&file, weights, &room);
        print(both, generator, &file);
    } else {
        let edges = [&PARTIAL_EDGES[..], &PARTIAL_PAST_EDGES].concat();
        let file = too_many_features(generator, edges);
        both.display_partial(&file, weights, &room);
        both.display(&file, weights, &room);
    }
}

/// A file with faults among its last numbers alone.
fn damaged_end(generator: &mut Generator, numbers: &[usize]) -> Vec<u8> {
    let (before, end) = numbers.split_at(numbers.len() - generator.between(1, 8));
    [encode(before), damaged_file(generator, end)].concat()
}

/// Faults behind many operators, also where the finder doesn't read any more.
pub fn late_operators(both: &mut Both, generator: &mut Generator) {
    let sizes = partials::sizes(generator, SMALL);
    let mut partial = accepted_partial(generator, &sizes, 4);
    let mut few = partial.operators.clone();
    few.push(staying(generator, &sizes));
    // Past 127 a count takes two bytes, past 16,383 three; behind so many, a place does too.
    let count = if generator.once_in(20) {
        generator.choose(&[16_383, 16_384, 17_000])
    } else {
        generator.choose(&[127, 128, 400, 1_500])
    };
    partial.operators = (0..count).map(|_| generator.choose(&few)).collect();
    let file = damaged_end(generator, &partial.numbers());
    let room = room(generator, 2);
    both.display_partial(&file, &[1, 0], &room);
    let numbers = kinds::numbers(generator, &completed(&partial));
    let file = damaged_end(generator, &numbers);
    both.display(&file, &[1, 0], &room);
    print(both, generator, &file);
    check_line(both, generator, &file, &[1, 0]);
}

/// Faults in weights of tasks that have about as many features as may be, or as could be before, or
/// as have numbers of two bytes.
pub fn late_weights(both: &mut Both, generator: &mut Generator) {
    let sizes = match generator.below(4) {
        0 => generator.choose(&NUMBER_EDGES),
        1 => generator.choose(&LIBRARY_EDGES),
        _ => generator.choose(&FORMER_EDGES),
    };
    let task = accepted_task(generator, sizes, 1);
    let task = kinds::file(generator, &task);
    let numbers = some_weights(generator, count_features(sizes));
    for _ in 0..8 {
        let weights = perhaps_damaged(generator, &numbers);
        let room = room(generator, 2);
        both.display(&task, &weights, &room);
    }
    let weights = damaged_file(generator, &numbers);
    check_line(both, generator, &task, &weights);
}

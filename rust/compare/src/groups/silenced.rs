//! Tasks with silenced variables: good and bad marks beside good and bad task files.

use super::partials::some_call;
use super::{byte_room, some_sizes, task};
use crate::both::Both;
use reference::calls::done;
use reference::numbers::encode;
use reference::partial::silenced;
use reference::sample::damage::damaged_file;
use reference::sample::kinds;
use reference::sample::partials::{marks, FORMER_PARTIAL_EDGES, PARTIAL_EDGES, PARTIAL_PAST_EDGES};
use reference::sample::tasks::{accepted_task, loose_task, operator, LIBRARY_EDGES, PAST_EDGES};
use reference::sample::Generator;
use reference::task::{read_task, Task};

/// The bytes that silencing needs, or some where it is refused.
fn due(task: &[u8], marks: &[u8]) -> usize {
    let partial = read_task(task).and_then(|task| silenced(&task, marks));
    partial.map_or(30, |partial| partial.file().len())
}

/// Silences in all kinds of room.
fn silence(both: &mut Both, generator: &mut Generator, task: &[u8], marks: &[u8]) {
    let room = byte_room(generator, due(task, marks));
    both.silence(task, marks, &room);
}

/// Marks that are too few, too many, or above 1; now and then good ones.
fn bad_marks(generator: &mut Generator, variables: usize) -> Vec<u8> {
    let mut marks = marks(generator, variables);
    let place = generator.below(variables);
    match generator.below(6) {
        0 => marks.truncate(place),
        1 => marks.push(generator.below(3) as u8),
        2 => {
            marks.pop();
        }
        3 => marks[place] = generator.choose(&[2, 3, 128, 129, 255]),
        4 => {
            marks[place] = 2;
            marks.truncate(generator.between(1, variables));
        }
        _ => {}
    }
    marks
}

/// Leaves an operator that was idle for want of a possible value, which it has once silenced.
fn with_idle(generator: &mut Generator, task: &mut Task) {
    let pairing = task.pairing();
    for _ in 0..8 {
        let operator = operator(generator, &task.sizes);
        if pairing.idle(&operator) {
            task.operators.push(operator);
        }
    }
}

/// Accepted tasks; what is written is read again by a call on partial files.
pub fn good(both: &mut Both, generator: &mut Generator) {
    let mut task = task(generator);
    with_idle(generator, &mut task);
    let file = kinds::file(generator, &task);
    let marks = marks(generator, task.sizes.len());
    silence(both, generator, &file, &marks);
    let room = generator.bytes(due(&file, &marks));
    let written = both.silence(&file, &marks, &room);
    if written.number == done(room.len()) {
        some_call(both, generator, &written.memory);
    }
}

/// Tasks that are accepted or not, damaged or whole, with marks that may be bad.
pub fn damaged(both: &mut Both, generator: &mut Generator) {
    let sizes = some_sizes(generator);
    let task = if generator.once_in(2) {
        loose_task(generator, &sizes, 4)
    } else {
        accepted_task(generator, &sizes, 4)
    };
    let file = if generator.once_in(3) {
        let numbers = kinds::numbers(generator, &task);
        damaged_file(generator, &numbers)
    } else {
        kinds::file(generator, &task)
    };
    let marks = bad_marks(generator, sizes.len());
    silence(both, generator, &file, &marks);
}

/// Tasks that have about as many features as may be, cut where these are judged or a little later.
pub fn cut_at_limits(both: &mut Both, generator: &mut Generator) {
    let edges = [&LIBRARY_EDGES[..], &PAST_EDGES].concat();
    let sizes = generator.choose(&edges);
    let behind = &[0, 0, 0][..generator.below(4)];
    let numbers = [&[sizes.len()], sizes, behind].concat();
    let file = encode(&kinds::fronted(generator, &numbers));
    let marks = bad_marks(generator, sizes.len());
    silence(both, generator, &file, &marks);
}

/// Tasks whose built ones have about as many features as may be.
pub fn limits(both: &mut Both, generator: &mut Generator) {
    let sizes = match generator.below(4) {
        0 => generator.choose(&FORMER_PARTIAL_EDGES),
        1 => generator.choose(&PARTIAL_EDGES),
        _ => generator.choose(&PARTIAL_PAST_EDGES),
    };
    let task = accepted_task(generator, sizes, 3);
    let marks = if generator.once_in(4) {
        bad_marks(generator, sizes.len())
    } else {
        marks(generator, sizes.len())
    };
    let file = kinds::file(generator, &task);
    silence(both, generator, &file, &marks);
}

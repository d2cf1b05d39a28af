//! Bays of ten to sixteen slots: built, judged, mended and silenced; few of them opened.

use super::bays::whole_way;
use super::{ample_room, byte_room, check_line, mended, room};
use crate::both::Both;
use reference::bay::{Bay, GAP};
use reference::feature_set::words_for;
use reference::features::count_features;
use reference::partial::{built_sizes, LeftOut, Partial};
use reference::sample::bays::{bay, order_weights, shapes, shuffled};
use reference::sample::handmade::handmade_bay;
use reference::sample::kinds;
use reference::sample::partials::{marks, silenced_bay};
use reference::sample::tasks::loose_weights;
use reference::sample::Generator;
use reference::separation::separates;
use reference::task::Task;
use reference::weights::weight_file;
use reference::workspace::{words_due, Record};
use std::ops::RangeInclusive;

/// A shape of so many slots.
pub(super) fn shape(generator: &mut Generator, slots: RangeInclusive<usize>) -> (usize, usize) {
    let mut shapes = shapes();
    shapes.retain(|(rows, columns)| slots.contains(&(rows * columns)));
    generator.choose(&shapes)
}

/// The bay's task, written in exactly the bytes due and in other room.
fn build(both: &mut Both, generator: &mut Generator, bay: &Bay) -> Vec<u8> {
    let due = bay.task().file().len();
    let room = byte_room(generator, due);
    both.build(&bay.file(), &room);
    let room = generator.bytes(due);
    both.build(&bay.file(), &room).memory
}

/// Weights that moves keep where no two labels are alike, nearly those, and any others.
fn check(both: &mut Both, generator: &mut Generator, bay: &Bay, task: &[u8]) {
    let mut weights = order_weights(bay);
    both.check(task, &weight_file(&weights));
    let count = count_features(&bay.task().sizes);
    weights.toggle(generator.below(count));
    check_line(both, generator, task, &weight_file(&weights));
    let weights = loose_weights(generator, count);
    both.check(task, &weight_file(&weights));
}

/// Bays from their files to what is said of weights.
pub fn judged(both: &mut Both, generator: &mut Generator) {
    let shape = shape(generator, 10..=16);
    let bay = bay(generator, shape);
    let task = build(both, generator, &bay);
    check(both, generator, &bay, &task);
    let words = room(generator, 2);
    both.display(&task, &[1, 0], &words);
    both.display_bay(&bay.file(), &words);
}

/// A bay's pairs, nearly those, or every pair.
pub fn lists(both: &mut Both, generator: &mut Generator) {
    let shape = shape(generator, 10..=16);
    let task = handmade_bay(generator, shape);
    mended::every_call(both, generator, &task);
}

/// A task's order with marks, whether or not it has room for "unknown".
fn marked(task: Task, marks: &[u8]) -> Partial {
    let ends = task.goal.iter().zip(marks);
    Partial {
        goal: ends
            .map(|(value, mark)| (*mark == 1).then_some(*value))
            .collect(),
        sizes: task.sizes,
        start: task.start,
        pairs: task.pairs,
        operators: task.operators,
    }
}

/// Orders that name some slots; sixteen slots are too many for "unknown".
pub fn silenced(both: &mut Both, generator: &mut Generator) {
    let shape = shape(generator, 10..=16);
    let task = bay(generator, shape).task();
    let marks = marks(generator, task.sizes.len());
    let partial = marked(task.clone(), &marks).file();
    let room = byte_room(generator, partial.len());
    both.silence(&kinds::file(generator, &task), &marks, &room);
    // Forgetting operators and longer numbers don't make the file twice as long.
    let room = generator.bytes(2 * partial.len());
    both.build_partial(&partial, &room);
    both.build_partial_lean(&partial, &room);
    let count = count_features(&built_sizes(&task.sizes));
    let weights = weight_file(&loose_weights(generator, count));
    both.check_partial(&partial, &weights);
    let words = generator.words(2);
    both.display_partial(&partial, &weights, &words);
}

/// Orders of ten slots, opened by the letter and searched.
pub fn silenced_openings(both: &mut Both, generator: &mut Generator) {
    let shape = shape(generator, 10..=10);
    let silent = generator.between(1, 3);
    let partial = silenced_bay(generator, shape, silent);
    let sizes = partial.built(LeftOut::ByLetter).sizes;
    let room = ample_room(generator, words_due(&sizes));
    let words = both.open_partial(&partial.file(), &room).memory;
    let room = ample_room(generator, words_for(count_features(&sizes)));
    both.find(&words, &room);
}

/// A bay without lots whose goal no moves lead to.
fn parted_bay(generator: &mut Generator, (rows, columns): (usize, usize)) -> Bay {
    let labels: Vec<usize> = (0..rows * columns).collect();
    let mut bay = Bay {
        rows,
        columns,
        start: shuffled(generator, &labels),
        goal: shuffled(generator, &labels),
    };
    if !separates(&bay.task(), &order_weights(&bay)) {
        // Two pallets change places.
        let first = usize::from(bay.goal[0] == GAP);
        let last = labels.len() - 1 - usize::from(bay.goal[labels.len() - 1] == GAP);
        bay.goal.swap(first, last);
    }
    bay
}

/// Bays of ten to twelve slots the whole way, one with lots or without, one that has an answer.
pub fn twelve(both: &mut Both, generator: &mut Generator) {
    let any = shape(generator, 10..=12);
    let bay = bay(generator, any);
    whole_way(both, generator, &bay);
    let any = shape(generator, 10..=12);
    let bay = parted_bay(generator, any);
    whole_way(both, generator, &bay);
}

/// A bay of fourteen or fifteen slots the whole way.
pub fn fifteen(both: &mut Both, generator: &mut Generator) {
    let shape = shape(generator, 14..=15);
    let bay = bay(generator, shape);
    whole_way(both, generator, &bay);
}

/// Four by four the whole way, with an answer; then a pallet may jump from corner to corner.
pub fn four_by_four(both: &mut Both, generator: &mut Generator) {
    let bay = parted_bay(generator, (4, 4));
    let words = whole_way(both, generator, &bay);
    let label = generator.between(1, 15) as u64;
    let jump = Record {
        count: 2,
        variables: vec![0, 15],
        befores: vec![0, label],
        afters: vec![label, 0],
    };
    both.add_operator(&words, &jump);
}

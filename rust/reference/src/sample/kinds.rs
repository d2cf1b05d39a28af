//! Files of either kind, gap lists about the end of their range, and files that claim the other kind.

use super::Generator;
use crate::features::count_features;
use crate::kinds::Kind;
use crate::limits::LARGEST;
use crate::numbers::encode;
use crate::task::Task;
use std::ops::Range;

pub fn kind(generator: &mut Generator) -> Kind {
    generator.choose(&Kind::BOTH)
}

/// A task's file of either kind.
pub fn file(generator: &mut Generator, task: &Task) -> Vec<u8> {
    task.file_of(kind(generator))
}

/// The numbers of a task's file of either kind, to be damaged.
pub fn numbers(generator: &mut Generator, task: &Task) -> Vec<usize> {
    task.numbers_of(kind(generator))
}

/// The numbers of a task's first part, or of all of it where it lists no pairs, in either kind.
pub fn fronted(generator: &mut Generator, numbers: &[usize]) -> Vec<usize> {
    [&kind(generator).front(), numbers].concat()
}

/// A gap list that leads up to an edge of its range or past it, behind its count; now and then
/// another number follows.
pub fn edged_list(generator: &mut Generator, range: &Range<usize>) -> Vec<usize> {
    let times = 1 + range.len() / generator.between(1, 3);
    let mut features: Vec<usize> = range
        .clone()
        .filter(|_| generator.once_in(times))
        .filter(|feature| feature + 1 < range.end)
        .collect();
    let least = features.last().map_or(0, |last| last + 1);
    let last = generator.choose(&edges(range));
    features.push(last.clamp(least, least + LARGEST));
    if generator.once_in(4) {
        features.push(features[features.len() - 1] + 1);
    }
    Kind::New.list(&features)
}

/// The first feature and the one before, the last and those behind, and some that would be in range
/// if sums were cut to sixteen bits.
fn edges(range: &Range<usize>) -> [usize; 9] {
    let (first, end) = (range.start, range.end);
    [
        first.saturating_sub(1),
        first,
        end.saturating_sub(1),
        end.saturating_sub(1),
        end,
        end + 1,
        (1 << 16) + first,
        (1 << 16) + end - 1,
        2 * LARGEST,
    ]
}

/// The numbers of a task of the new kind whose pairs lead up to an edge of their range or past it.
pub fn edged_task(generator: &mut Generator, task: &Task) -> Vec<usize> {
    let singles: usize = task.sizes.iter().sum();
    let mut numbers = task.numbers_of(Kind::New);
    let pairs = 2 + 3 * task.sizes.len();
    let edged = edged_list(generator, &(singles..count_features(&task.sizes)));
    numbers.splice(pairs..=pairs + task.pairs.len(), edged);
    numbers
}

/// The numbers of a weight file of the new kind whose features lead up to the end of their range or
/// past it.
pub fn edged_weights(generator: &mut Generator, count: usize) -> Vec<usize> {
    [Kind::New.front(), edged_list(generator, &(0..count))].concat()
}

/// A file of some kind without its front, or with the other's.
pub fn miskinded_file(kind: Kind, numbers: &[usize]) -> Vec<u8> {
    let behind = &numbers[kind.front().len()..];
    encode(&[&kind.other().front(), behind].concat())
}

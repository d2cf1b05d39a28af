//! Many operators, many variables, tasks up to the limit of features that was there before bays of
//! sixteen, bays of nine slots.

use super::bays::whole_way;
use super::kept::staying;
use super::{ample_room, check_line, room};
use crate::both::Both;
use reference::feature_set::words_for;
use reference::features::count_features;
use reference::kinds::Kind;
use reference::limits::{BEFORE, LARGEST};
use reference::operators::{Entry, Operator};
use reference::sample::bays::{bay, shapes};
use reference::sample::kinds;
use reference::sample::tasks::{
    accepted_task, meeting_weights, operator, scaled_task, sizes, Scale, FORMER_EDGES, LARGE, TINY,
    WIDE,
};
use reference::sample::workspaces::{damaged_record, loose_record, values};
use reference::sample::Generator;
use reference::task::Task;
use reference::weights::weight_file;
use reference::workspace::words_due;

/// A little more features than there could be before.
const MIDDLING: Scale = Scale {
    most_features: 6_500,
    ..LARGE
};

/// Hundreds of operators, most of them repeated, with late ones that may break the weights.
pub fn many_operators(both: &mut Both, generator: &mut Generator) {
    let mut task = scaled_task(generator, TINY);
    let weights = meeting_weights(generator, &task);
    let pairing = task.pairing();
    let few = task.operators.clone();
    if !few.is_empty() {
        // Past 127 a count takes two bytes, past 16,383 three.
        let count = if generator.once_in(40) {
            generator.choose(&[16_380, 16_381, 16_382, 16_383, 16_384, 16_390])
        } else {
            generator.choose(&[126, 127, 128, 129, 400])
        };
        task.operators = (0..count).map(|_| generator.choose(&few)).collect();
    }
    for _ in 0..4 {
        let late = operator(generator, &task.sizes);
        if pairing.closed(&late) {
            let place = generator.between(task.operators.len() / 2, task.operators.len());
            task.operators.insert(place, late);
        }
    }
    let file = kinds::file(generator, &task);
    both.check(&file, &weight_file(&weights));
    check_line(both, generator, &file, &weight_file(&weights));
    let room = ample_room(generator, words_due(&task.sizes));
    both.open(&file, &room);
    let room = generator.bytes(100);
    both.line(&file, &room);
}

/// Every call on one task.
pub(super) fn every_call(both: &mut Both, generator: &mut Generator, task: &Task) {
    let file = kinds::file(generator, task);
    let weights = meeting_weights(generator, task);
    both.check(&file, &weight_file(&weights));
    let due = words_due(&task.sizes);
    let narrow = room(generator, due);
    both.open(&file, &narrow);
    let ample = ample_room(generator, due);
    let words = both.open(&file, &ample).memory;
    let room = ample_room(generator, words_for(count_features(&task.sizes)));
    both.find(&words, &room);
    let operator = operator(generator, &task.sizes);
    let record = loose_record(generator, &operator);
    let words = both.add_operator(&words, &record).memory;
    let record = damaged_record(generator, &task.sizes);
    let words = both.add_operator(&words, &record).memory;
    let values = values(generator, &task.sizes);
    let words = both.replace_start(&words, &values).memory;
    let words = both.replace_goal(&words, &values).memory;
    both.find(&words, &room);
}

/// So many operators that do nothing, then one that takes the back digit from 0 to 1.
fn counted(generator: &mut Generator, count: usize, pairs: &[usize]) -> Task {
    let sizes = vec![2, 2];
    let mut operators = vec![staying(generator, &sizes); count];
    operators.push(Operator {
        entries: [Entry {
            variable: 1,
            before: 0,
            after: 1,
        }]
        .into(),
    });
    Task {
        sizes,
        start: vec![0, 0],
        goal: vec![0, 1],
        pairs: pairs.to_vec(),
        operators,
    }
}

/// Every call that tells an operator's number, or a place behind all of them, where the last one is
/// at fault.
fn last_at_fault(both: &mut Both, generator: &mut Generator, kind: Kind, count: usize) {
    let file = counted(generator, count, &[]).file_of(kind);
    // The back digit's 0 parts the ends.
    let weights = [1, 2];
    both.check(&file, &weights);
    let line = generator.bytes(40);
    both.check_line(&file, &weights, &line);
    let words = ample_room(generator, 2);
    both.display(&file[..file.len() - 1], &weights, &words);
    // Both digits 1 is a pair that the last operator makes true.
    let file = counted(generator, count, &[7]).file_of(kind);
    both.pair_fault(&file, &words);
    let room = generator.bytes(file.len());
    both.mend(&file, &room);
    both.dropped(&file, &room[..4]);
}

/// Counts that take three bytes, and operators whose numbers take more than sixteen bits.
pub fn long_counts(both: &mut Both, generator: &mut Generator) {
    for counts in [[16_382, 16_383, 16_384], [65_536, 65_537, 100_000]] {
        let count = generator.choose(&counts);
        for kind in Kind::BOTH {
            last_at_fault(both, generator, kind, count);
        }
    }
}

/// As many operators as a number counts.
pub fn operators_in_millions(both: &mut Both, generator: &mut Generator) {
    let kind = kinds::kind(generator);
    last_at_fault(both, generator, kind, LARGEST - 1);
}

/// Sizes of more features than there could be before, but of few enough to open many such tasks.
fn middling_sizes(generator: &mut Generator) -> Vec<usize> {
    loop {
        let sizes = sizes(generator, MIDDLING);
        if count_features(&sizes) > BEFORE.features {
            return sizes;
        }
    }
}

/// Tasks past the limit of before.
pub fn middling(both: &mut Both, generator: &mut Generator) {
    let sizes = middling_sizes(generator);
    let task = accepted_task(generator, &sizes, MIDDLING.most_operators);
    every_call(both, generator, &task);
}

/// Tasks of many variables.
pub fn wide(both: &mut Both, generator: &mut Generator) {
    let task = scaled_task(generator, WIDE);
    every_call(both, generator, &task);
}

/// Tasks up to the limit of before, and a little past it.
pub fn large(both: &mut Both, generator: &mut Generator) {
    let sizes = if generator.once_in(2) {
        generator.choose(&FORMER_EDGES).to_vec()
    } else {
        sizes(generator, LARGE)
    };
    let task = accepted_task(generator, &sizes, LARGE.most_operators);
    every_call(both, generator, &task);
}

/// Bays of seven to nine slots the whole way; three by three more often than the long ones.
pub fn nine_slots(both: &mut Both, generator: &mut Generator) {
    let long: Vec<_> = shapes()
        .into_iter()
        .filter(|(rows, columns)| (7..=9).contains(&(rows * columns)))
        .collect();
    let shape = if generator.once_in(2) {
        (3, 3)
    } else {
        generator.choose(&long)
    };
    let bay = bay(generator, shape);
    whole_way(both, generator, &bay);
}

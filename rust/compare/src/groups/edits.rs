//! Sequences of edits, refused ones among them.

use super::{ample_room, some_sizes, task};
use crate::both::Both;
use reference::calls::done;
use reference::feature_set::words_for;
use reference::features::count_features;
use reference::operators::Operator;
use reference::sample::tasks::{operator, state};
use reference::sample::workspaces::{damaged_record, foreign_workspace, loose_record, values};
use reference::sample::Generator;
use reference::task::Task;
use reference::workspace::words_due;

/// The words under edit and the task that they stand for.
struct Edited {
    words: Vec<u64>,
    task: Task,
}

/// An operator that the pairs are closed under, if one is met soon.
fn closed_operator(generator: &mut Generator, task: &Task) -> Operator {
    let pairing = task.pairing();
    let mut chosen = operator(generator, &task.sizes);
    for _ in 0..8 {
        if pairing.closed(&chosen) {
            break;
        }
        chosen = operator(generator, &task.sizes);
    }
    chosen
}

fn add_operator(both: &mut Both, generator: &mut Generator, edited: &mut Edited) {
    let operator = if generator.once_in(4) {
        operator(generator, &edited.task.sizes)
    } else {
        closed_operator(generator, &edited.task)
    };
    let record = loose_record(generator, &operator);
    let outcome = both.add_operator(&edited.words, &record);
    if outcome.number == done(0) {
        edited.task.operators.push(operator);
    }
    edited.words = outcome.memory;
}

/// A record with faults; some are harmless, and then it may be any operator.
fn add_damaged(both: &mut Both, generator: &mut Generator, edited: &mut Edited) {
    let record = damaged_record(generator, &edited.task.sizes);
    let outcome = both.add_operator(&edited.words, &record);
    // Without knowing the operator the task can't follow, so the words stay.
    if outcome.number != done(0) {
        edited.words = outcome.memory;
    }
}

fn replace_start(both: &mut Both, generator: &mut Generator, edited: &mut Edited) {
    let values = values(generator, &edited.task.sizes);
    let outcome = both.replace_start(&edited.words, &values);
    if outcome.number == done(0) {
        edited.task.start = values.iter().map(|value| *value as usize).collect();
    }
    edited.words = outcome.memory;
}

fn replace_goal(both: &mut Both, generator: &mut Generator, edited: &mut Edited) {
    let values = values(generator, &edited.task.sizes);
    let outcome = both.replace_goal(&edited.words, &values);
    if outcome.number == done(0) {
        edited.task.goal = values.iter().map(|value| *value as usize).collect();
    }
    edited.words = outcome.memory;
}

fn edit(both: &mut Both, generator: &mut Generator, edited: &mut Edited) {
    match generator.below(8) {
        0..=3 => add_operator(both, generator, edited),
        4 => add_damaged(both, generator, edited),
        5 | 6 => replace_start(both, generator, edited),
        _ => replace_goal(both, generator, edited),
    }
}

fn find(both: &mut Both, generator: &mut Generator, edited: &Edited) {
    let width = words_for(count_features(&edited.task.sizes));
    let room = ample_room(generator, width);
    both.find(&edited.words, &room);
}

/// Some operators again, and all in another order.
pub(super) fn reordered(generator: &mut Generator, task: &Task) -> Task {
    let mut task = task.clone();
    for operator in task.operators.clone() {
        if generator.once_in(3) {
            task.operators.push(operator);
        }
    }
    generator.shuffle(&mut task.operators);
    task
}

/// Edits of an opened task lead to the words of a fresh opening.
pub fn opened(both: &mut Both, generator: &mut Generator) {
    let mut task = task(generator);
    let kept = generator.between(0, task.operators.len());
    task.operators.truncate(kept);
    let due = words_due(&task.sizes);
    let room = ample_room(generator, due);
    let words = both.open(&task.file(), &room).memory;
    let mut edited = Edited { words, task };
    for _ in 0..generator.between(1, 8) {
        edit(both, generator, &mut edited);
    }
    find(both, generator, &edited);
    let task = reordered(generator, &edited.task);
    both.fresh(&task.file(), &edited.words[..due]);
}

/// Edits of words made by hand, whose slots stand for the earlier operators.
pub fn foreign(both: &mut Both, generator: &mut Generator) {
    let sizes = some_sizes(generator);
    let workspace = foreign_workspace(generator, &sizes);
    let task = Task {
        goal: state(generator, &workspace.sizes),
        start: workspace.start.clone(),
        pairs: workspace.pairs.members(),
        operators: Vec::new(),
        sizes: workspace.sizes.clone(),
    };
    let words = workspace.words();
    let mut edited = Edited { words, task };
    for _ in 0..generator.between(1, 5) {
        edit(both, generator, &mut edited);
    }
    find(both, generator, &edited);
}

//! Tasks whose slots stay pending while further operators come, and are settled several times.

use super::ample_room;
use super::edits::reordered;
use crate::both::Both;
use crate::pending::Course;
use reference::calls::done;
use reference::features::{count_features, Features};
use reference::operators::{conditions, Entry, Operator, Pairing};
use reference::partial::{silenced, LeftOut};
use reference::sample::partials::marks;
use reference::sample::tasks::{operator, sizes, state, Scale};
use reference::sample::workspaces::loose_record;
use reference::sample::Generator;
use reference::task::Task;
use reference::workspace::words_due;

/// Enough features that slots are pending for a while, and few enough to open many such tasks.
const SETTLED: Scale = Scale {
    most_features: 1_500,
    most_variables: 8,
    most_values: 40,
    most_operators: 200,
};

/// With fewer features nearly every operator is settled at once.
const LEAST_FEATURES: usize = 64;

fn some_sizes(generator: &mut Generator) -> Vec<usize> {
    loop {
        let sizes = sizes(generator, SETTLED);
        if count_features(&sizes) >= LEAST_FEATURES {
            return sizes;
        }
    }
}

/// No pairs, or few enough that most operators stay live and closed.
fn some_pairs(generator: &mut Generator, sizes: &[usize], start: &[usize]) -> Vec<usize> {
    let features = Features::new(sizes);
    let mut pairs: Vec<usize> = (features.singles()..features.count()).collect();
    let none = generator.once_in(2);
    pairs.retain(|pair| !none && generator.once_in(40) && !features.feature(*pair).holds(start));
    pairs
}

/// An operator that names all variables but two at most, so that it brings few rows.
fn long_operator(generator: &mut Generator, sizes: &[usize]) -> Operator {
    let befores = state(generator, sizes);
    let afters = state(generator, sizes);
    let values = befores.into_iter().zip(afters).enumerate();
    let mut entries: Vec<Entry> = values
        .map(|(variable, (before, after))| Entry {
            variable,
            before,
            after,
        })
        .collect();
    for _ in 0..generator.below(sizes.len().min(3)) {
        entries.remove(generator.below(entries.len()));
    }
    entries.into()
}

/// Mostly a long operator, now and then one that brings enough rows for a settling of its own.
fn some_operator(generator: &mut Generator, sizes: &[usize]) -> Operator {
    if generator.once_in(8) {
        operator(generator, sizes)
    } else {
        long_operator(generator, sizes)
    }
}

/// Operators by which slots are settled several times, with some pending behind the last.
fn some_operators(generator: &mut Generator, pairing: &Pairing) -> Vec<Operator> {
    let sizes = pairing.features.sizes();
    let settlings = generator.between(2, 6);
    let mut more = generator.below(8);
    let mut course = Course::new(pairing.features.count());
    let mut operators = Vec::new();
    // Where all slots that can be filled are filled, none gets pending any more.
    for _ in 0..SETTLED.most_operators {
        if course.settlings >= settlings && course.pending > 0 {
            if more == 0 {
                break;
            }
            more -= 1;
        }
        let operator = some_operator(generator, sizes);
        if pairing.closed(&operator) {
            course.take(&conditions(pairing, &operator));
            operators.push(operator);
        }
    }
    operators
}

fn some_task(generator: &mut Generator) -> Task {
    let sizes = some_sizes(generator);
    let start = state(generator, &sizes);
    let pairs = some_pairs(generator, &sizes, &start);
    Task {
        goal: state(generator, &sizes),
        operators: some_operators(generator, &Pairing::new(&sizes, &pairs)),
        sizes,
        start,
        pairs,
    }
}

/// The way back of an operator, of which the rows are the same where no pairs are in the way.
fn reversed(operator: &Operator) -> Operator {
    let turned = |entry: &Entry| Entry {
        before: entry.after,
        after: entry.before,
        ..*entry
    };
    Operator {
        entries: operator.entries.iter().map(turned).collect(),
    }
}

/// An operator whose rows follow already, or mostly do, or one that may bring new ones.
fn late_operator(generator: &mut Generator, task: &Task) -> Operator {
    match generator.below(4) {
        0 => generator.choose(&task.operators),
        1 => reversed(&generator.choose(&task.operators)),
        _ => some_operator(generator, &task.sizes),
    }
}

/// Adds operators to opened words and to their task; the words are handed back.
fn edited(
    both: &mut Both,
    generator: &mut Generator,
    task: &mut Task,
    mut words: Vec<u64>,
) -> Vec<u64> {
    for _ in 0..generator.between(2, 4) {
        let operator = late_operator(generator, task);
        let record = loose_record(generator, &operator);
        let outcome = both.add_operator(&words, &record);
        if outcome.number == done(0) {
            task.operators.push(operator);
        }
        words = outcome.memory;
    }
    words
}

/// Opens the task with silent variables, so that rows of forgetting operators meet pending slots.
fn silenced_opening(both: &mut Both, generator: &mut Generator, task: &Task) {
    let marks = marks(generator, task.sizes.len());
    let partial = silenced(task, &marks).expect("small tasks keep the limits");
    let built = partial.built(LeftOut::ByLetter);
    let due = words_due(&built.sizes);
    let room = ample_room(generator, due);
    let opened = both.open_partial(&partial.file(), &room);
    if opened.number == done(due) {
        let other = reordered(generator, &built);
        both.fresh(&other.file(), &opened.memory[..due]);
    }
}

/// Opened words are the same in any order of operators, and after edits those of a fresh opening.
pub fn opened(both: &mut Both, generator: &mut Generator) {
    let mut task = some_task(generator);
    let due = words_due(&task.sizes);
    let room = ample_room(generator, due);
    let words = both.open(&task.file(), &room).memory;
    let other = reordered(generator, &task);
    both.fresh(&other.file(), &words[..due]);
    if generator.once_in(3) {
        silenced_opening(both, generator, &task);
    }
    let words = edited(both, generator, &mut task, words);
    both.fresh(&task.file(), &words[..due]);
}

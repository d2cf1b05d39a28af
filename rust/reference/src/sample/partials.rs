//! Random partial files.

use super::bays::bay;
use super::tasks::{self, first_open_pairs, free_start, loose_task, Scale};
use super::Generator;
use crate::features::{count_features, Atom, Features};
use crate::limits::MOST_VALUES;
use crate::partial::{built_sizes, silenced, LeftOut, Partial};
use crate::task::Task;

/// Sizes of partial files whose built tasks are at the limit of before: 4,094 to 4,097 features,
/// 4,050 and 4,232 by 45 and 46 variables, and more by 64.
pub const FORMER_PARTIAL_EDGES: [&[usize]; 8] = [
    &[63, 61],
    &[62, 62],
    &[35, 23, 51],
    &[37, 53, 20],
    &[63, 62],
    &[1; 45],
    &[1; 46],
    &[1; 64],
];

/// Sizes of partial files whose built tasks have 32,767 and 32,768 features, and nearly so many by
/// 64 variables.
pub const PARTIAL_EDGES: [&[usize]; 3] = [&[38, 54, 63, 63, 63], &[62, 58, 37, 62, 62], &[3; 64]];

/// Sizes of good tasks whose built tasks break a limit: a size of 65, or 32,769 features and more,
/// a bay of sixteen among them.
pub const PARTIAL_PAST_EDGES: [&[usize]; 6] = [
    &[64],
    &[1, 64],
    &[63, 37, 62, 59, 60],
    &[63, 63, 63, 63, 30],
    &[4; 64],
    &[16; 16],
];

/// Sizes whose built task keeps a scale.
pub fn sizes(generator: &mut Generator, scale: Scale) -> Vec<usize> {
    loop {
        let sizes = tasks::sizes(generator, scale);
        let built = built_sizes(&sizes);
        let short = built.iter().all(|size| *size <= MOST_VALUES);
        if short && count_features(&built) <= scale.most_features {
            return sizes;
        }
    }
}

/// Marks of all kinds, now and then all silent or all named.
pub fn marks(generator: &mut Generator, variables: usize) -> Vec<u8> {
    match generator.below(8) {
        0 => vec![0; variables],
        1 => vec![1; variables],
        _ => (0..variables).map(|_| generator.below(2) as u8).collect(),
    }
}

/// Lists values of silent variables as exclusive with named goals, the start's values first of all,
/// so that forgetting operators are left out.
fn exclude_silent(generator: &mut Generator, partial: &mut Partial) {
    let features = Features::new(&partial.sizes);
    let silent = (0..partial.sizes.len()).filter(|variable| !partial.named(*variable));
    let mut pairs = Vec::new();
    for variable in silent {
        let value = if generator.once_in(3) {
            generator.below(partial.sizes[variable])
        } else {
            partial.start[variable]
        };
        let goals = partial.goal_atoms();
        let excluded = goals.iter().filter(|_| generator.once_in(2));
        pairs.extend(excluded.filter_map(|goal| features.mixed(Atom { variable, value }, *goal)));
    }
    partial.pairs.extend(pairs);
    partial.pairs.sort_unstable();
    partial.pairs.dedup();
}

/// A partial file that may be refused 6 or 7, but for nothing before.
pub fn loose_partial(generator: &mut Generator, sizes: &[usize], most_operators: usize) -> Partial {
    let task = loose_task(generator, sizes, most_operators);
    let marks = marks(generator, sizes.len());
    let mut partial = silenced(&task, &marks).expect("sizes whose built task keeps the limits");
    if generator.once_in(2) {
        exclude_silent(generator, &mut partial);
    }
    partial
}

/// Drops pairs until the built task's list is closed under every operator.
fn close_pairs(partial: &mut Partial) {
    loop {
        let built = partial.built(LeftOut::Nothing);
        let Some(open) = first_open_pairs(&built) else {
            return;
        };
        // A pair has the same place in both lists.
        let mut numbers = built.pairs.iter();
        partial
            .pairs
            .retain(|_| numbers.next().is_some_and(|number| !open.contains(number)));
    }
}

/// A partial file that is accepted: pairs are dropped, or operators that they aren't closed under.
pub fn accepted_partial(
    generator: &mut Generator,
    sizes: &[usize],
    most_operators: usize,
) -> Partial {
    let mut partial = loose_partial(generator, sizes, most_operators);
    free_start(&partial.sizes, &partial.start, &mut partial.pairs);
    if generator.once_in(2) {
        close_pairs(&mut partial);
    } else {
        let pairing = partial.built(LeftOut::Nothing).pairing();
        partial.operators.retain(|each| pairing.closed(each));
    }
    partial
}

/// An accepted partial file of some scale.
pub fn scaled_partial(generator: &mut Generator, scale: Scale) -> Partial {
    let sizes = sizes(generator, scale);
    accepted_partial(generator, &sizes, scale.most_operators)
}

/// Marks with so many silent slots.
pub fn silent_marks(generator: &mut Generator, slots: usize, silent: usize) -> Vec<u8> {
    let mut marks = vec![1; slots];
    marks[..silent].fill(0);
    generator.shuffle(&mut marks);
    marks
}

/// A bay's task with so many silent slots.
pub fn silenced_bay(generator: &mut Generator, shape: (usize, usize), silent: usize) -> Partial {
    let task = bay(generator, shape).task();
    let marks = silent_marks(generator, task.sizes.len(), silent);
    silenced(&task, &marks).expect("bays of up to fifteen slots keep the limits")
}

/// A task that silencing turns into a partial file: silent variables get their first value as goal.
pub fn completed(partial: &Partial) -> Task {
    Task {
        sizes: partial.sizes.clone(),
        start: partial.start.clone(),
        goal: partial.goal.iter().map(|goal| goal.unwrap_or(0)).collect(),
        pairs: partial.pairs.clone(),
        operators: partial.operators.clone(),
    }
}

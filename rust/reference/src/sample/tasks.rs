//! Random sizes, operators, tasks and weights.

use super::Generator;
use crate::feature_set::FeatureSet;
use crate::features::{count_features, Atom, Features, State};
use crate::forced::{generators, Generators};
use crate::limits::{BEFORE, MOST_VALUES, MOST_VARIABLES, NOW};
use crate::operators::{conditions, Entry, Operator, Pairing};
use crate::separation::keeps_by_changes;
use crate::task::Task;

/// How large a random task may be.
#[derive(Clone, Copy, Debug)]
pub struct Scale {
    pub most_features: usize,
    pub most_variables: usize,
    pub most_values: usize,
    pub most_operators: usize,
}

/// Small enough to enumerate all sets of features.
pub const TINY: Scale = Scale {
    most_features: 12,
    most_variables: 4,
    most_values: 6,
    most_operators: 5,
};

/// One or two words for each set.
pub const SMALL: Scale = Scale {
    most_features: 80,
    most_variables: 5,
    most_values: 5,
    most_operators: 10,
};

/// Several words for each set.
pub const MEDIUM: Scale = Scale {
    most_features: 300,
    most_variables: 9,
    most_values: 12,
    most_operators: 16,
};

/// Many variables of one value or two, so that operators have many entries.
pub const WIDE: Scale = Scale {
    most_features: 1_000,
    most_variables: 40,
    most_values: 2,
    most_operators: 8,
};

/// Up to the limit of features that was there before bays of sixteen.
pub const LARGE: Scale = Scale {
    most_features: BEFORE.features,
    most_variables: MOST_VARIABLES,
    most_values: MOST_VALUES,
    most_operators: 12,
};

/// Up to the limit of features.
pub const HUGE: Scale = Scale {
    most_features: NOW.features,
    ..LARGE
};

/// Sizes whose numbers of features lie at the edges of words: 63, 64, 65, 127, 128, 129.
pub const WORD_EDGES: [&[usize]; 8] = [
    &[63],
    &[64],
    &[7, 7],
    &[4, 12],
    &[5, 10],
    &[7, 15],
    &[2, 42],
    &[9, 12],
];

/// Sizes at the program's limit: 639, 640 and 641 features.
pub const PROGRAM_EDGES: [&[usize]; 5] = [
    &[19, 14, 10],
    &[15, 5, 8, 13],
    &[9, 33, 7],
    &[17, 4, 15, 6],
    &[18, 22, 5],
];

/// Sizes at the limit of before: 4,095 to 4,097 features, and those that document 01 names.
pub const FORMER_EDGES: [&[usize]; 9] = [
    &[63, 63],
    &[36, 24, 52],
    &[19, 20, 11, 12, 8, 2, 11, 14],
    &[1, 21, 56, 35],
    &[38, 54, 21],
    &[33, 24, 18, 29],
    &[64, 62],
    &[64, 63],
    &[1; 64],
];

/// Sizes whose last features are written in two bytes or in three: 16,383 to 16,386 features.
pub const NUMBER_EDGES: [&[usize]; 4] = [
    &[21, 63, 64, 64],
    &[48, 48, 52, 60],
    &[64, 37, 58, 50],
    &[39, 63, 46, 61],
];

/// Sizes at the library's limit: 32,767 and 32,768 features, and the most of 64 variables of one
/// size.
pub const LIBRARY_EDGES: [&[usize]; 5] = [
    &[39, 55, 64, 64, 64],
    &[63, 59, 38, 63, 63],
    &[21, 24, 26, 33, 37, 40, 44, 49],
    &[
        15, 6, 10, 8, 15, 5, 14, 11, 12, 6, 15, 11, 8, 14, 7, 15, 10, 12, 6, 15, 8, 14, 11, 13,
    ],
    &[4; 64],
];

/// Sizes past the library's limit: 32,769 features, the least past four of size 64, and far more.
pub const PAST_EDGES: [&[usize]; 5] = [
    &[64, 38, 63, 60, 61],
    &[45, 28, 37, 31, 34, 28, 37, 33],
    &[64, 64, 64, 64, 31],
    &[5; 64],
    &[64; 64],
];

pub fn sizes(generator: &mut Generator, scale: Scale) -> Vec<usize> {
    loop {
        let variables = generator.between(1, scale.most_variables);
        // Short ranges are frequent, so that many variables fit under the limit.
        let most = generator.between(2, scale.most_values);
        let most = if generator.once_in(16) { 1 } else { most };
        let sizes: Vec<usize> = (0..variables).map(|_| generator.between(1, most)).collect();
        if count_features(&sizes) <= scale.most_features {
            return sizes;
        }
    }
}

pub fn state(generator: &mut Generator, sizes: &[usize]) -> State {
    sizes.iter().map(|size| generator.below(*size)).collect()
}

fn entry(generator: &mut Generator, variable: usize, size: usize) -> Entry {
    let before = generator.below(size);
    // Kept values are a kind of their own, so they are made more frequent.
    let kept = generator.once_in(5);
    Entry {
        variable,
        before,
        after: if kept { before } else { generator.below(size) },
    }
}

/// Some variables, increasing.
fn some_variables(generator: &mut Generator, variables: usize, count: usize) -> Vec<usize> {
    let mut all: Vec<usize> = (0..variables).collect();
    generator.shuffle(&mut all);
    all.truncate(count);
    all.sort_unstable();
    all
}

pub fn operator(generator: &mut Generator, sizes: &[usize]) -> Operator {
    let most = if generator.once_in(4) {
        sizes.len()
    } else {
        sizes.len().min(3)
    };
    let count = generator.between(1, most);
    let named = some_variables(generator, sizes.len(), count);
    let entries = named
        .into_iter()
        .map(|variable| entry(generator, variable, sizes[variable]))
        .collect();
    Operator { entries }
}

fn loose_operators(generator: &mut Generator, sizes: &[usize], most: usize) -> Vec<Operator> {
    let count = generator.between(0, most);
    (0..count).map(|_| operator(generator, sizes)).collect()
}

/// A family as in case B: each combination of values of some variables is turned the same way.
fn turning_operators(generator: &mut Generator, sizes: &[usize]) -> Vec<Operator> {
    let count = generator.between(1, sizes.len().min(2));
    let named = some_variables(generator, sizes.len(), count);
    let mut turns: Vec<Vec<Entry>> = vec![Vec::new()];
    for variable in named {
        let mut turned: Vec<usize> = (0..sizes[variable]).collect();
        generator.shuffle(&mut turned);
        let mut longer = Vec::new();
        for turn in &turns {
            for (before, after) in turned.iter().enumerate().take(4) {
                let mut extended = turn.clone();
                extended.push(Entry {
                    variable,
                    before,
                    after: *after,
                });
                longer.push(extended);
            }
        }
        turns = longer;
    }
    turns.into_iter().map(Operator::from).collect()
}

/// Swaps of two values between two variables, as pallets change places with the gap.
fn swapping_operators(generator: &mut Generator, sizes: &[usize], most: usize) -> Vec<Operator> {
    let mut operators = Vec::new();
    for _ in 0..generator.between(1, most) {
        let named = some_variables(generator, sizes.len(), 2);
        let common = named.iter().map(|each| sizes[*each]).min().unwrap_or(1);
        let (one, other) = (generator.below(common), generator.below(common));
        let entries = named
            .iter()
            .zip([(one, other), (other, one)])
            .map(|(variable, (before, after))| Entry {
                variable: *variable,
                before,
                after,
            })
            .collect();
        operators.push(Operator { entries });
    }
    operators
}

/// Only operators that keep the parity of weights made of a few atoms.
fn keeping_operators(generator: &mut Generator, sizes: &[usize], most: usize) -> Vec<Operator> {
    let pairing = Pairing::new(sizes, &[]);
    let count = pairing.features.count();
    let mut weights = FeatureSet::empty(count);
    for single in 0..pairing.features.singles() {
        if generator.once_in(2) {
            weights.insert(single);
        }
    }
    let mut operators = loose_operators(generator, sizes, 2 * most);
    operators.retain(|operator| keeps_by_changes(&pairing, operator, &weights));
    operators
}

/// Operators of one kind or of several.
fn operators(generator: &mut Generator, sizes: &[usize], most: usize) -> Vec<Operator> {
    match generator.below(6) {
        0 => turning_operators(generator, sizes),
        1 => swapping_operators(generator, sizes, most),
        2 | 3 => keeping_operators(generator, sizes, most),
        4 => {
            let mut mixed = turning_operators(generator, sizes);
            mixed.extend(loose_operators(generator, sizes, 2));
            generator.shuffle(&mut mixed);
            mixed
        }
        _ => loose_operators(generator, sizes, most),
    }
}

/// Two-variable features, each listed once in so many times.
fn loose_pairs(generator: &mut Generator, features: &Features, times: usize) -> Vec<usize> {
    (features.singles()..features.count())
        .filter(|_| generator.once_in(times))
        .collect()
}

/// The features that put one value in two variables, as in bays.
fn label_pairs(features: &Features) -> Vec<usize> {
    let sizes = features.sizes();
    let mut pairs = Vec::new();
    for first in 0..sizes.len() {
        for second in first + 1..sizes.len() {
            for value in 0..sizes[first].min(sizes[second]) {
                let atom = |variable| Atom { variable, value };
                pairs.extend(features.mixed(atom(first), atom(second)));
            }
        }
    }
    pairs.sort_unstable();
    pairs
}

/// Any list of pairs, increasing; long ones make most operators idle, so they are rarer.
pub fn pairs(generator: &mut Generator, features: &Features) -> Vec<usize> {
    match generator.below(12) {
        0 => loose_pairs(generator, features, 1),
        1 => loose_pairs(generator, features, 2),
        2 => loose_pairs(generator, features, 4),
        3 | 4 => label_pairs(features),
        5..=8 => loose_pairs(generator, features, 12),
        _ => Vec::new(),
    }
}

/// A task that may be refused 6 or 7, but for nothing before.
pub fn loose_task(generator: &mut Generator, sizes: &[usize], most_operators: usize) -> Task {
    let features = Features::new(sizes);
    Task {
        sizes: sizes.to_vec(),
        start: state(generator, sizes),
        goal: state(generator, sizes),
        pairs: pairs(generator, &features),
        operators: operators(generator, sizes, most_operators),
    }
}

/// Drops the pairs that a start holds.
pub(super) fn free_start(sizes: &[usize], start: &[usize], pairs: &mut Vec<usize>) {
    let features = Features::new(sizes);
    pairs.retain(|pair| !features.feature(*pair).holds(start));
}

/// The pairs by which a task's list isn't closed under the first such operator.
pub(super) fn first_open_pairs(task: &Task) -> Option<Vec<usize>> {
    let pairing = task.pairing();
    let mut operators = task.operators.iter();
    let open = operators.find(|operator| !pairing.closed(operator))?;
    Some(pairing.unclosed(open))
}

/// Drops pairs until the list is closed under every operator.
fn close_pairs(task: &mut Task) {
    while let Some(open) = first_open_pairs(task) {
        task.pairs.retain(|pair| !open.contains(pair));
    }
}

/// A task that is accepted: pairs are dropped, or operators that they aren't closed under.
pub fn accepted_task(generator: &mut Generator, sizes: &[usize], most_operators: usize) -> Task {
    let mut task = loose_task(generator, sizes, most_operators);
    free_start(&task.sizes, &task.start, &mut task.pairs);
    if generator.once_in(2) {
        close_pairs(&mut task);
    } else {
        let pairing = task.pairing();
        task.operators.retain(|operator| pairing.closed(operator));
    }
    task
}

/// An accepted task of some scale.
pub fn scaled_task(generator: &mut Generator, scale: Scale) -> Task {
    let sizes = sizes(generator, scale);
    accepted_task(generator, &sizes, scale.most_operators)
}

/// All conditions of a task.
pub fn task_conditions(task: &Task) -> Vec<FeatureSet> {
    let pairing = task.pairing();
    task.operators
        .iter()
        .flat_map(|operator| conditions(&pairing, operator))
        .collect()
}

/// Generators of the weight lists that meet all of a task's conditions.
pub fn task_generators(task: &Task) -> Generators {
    generators(count_features(&task.sizes), &task_conditions(task))
}

/// A random list that meets all of a task's conditions.
pub fn meeting_weights(generator: &mut Generator, task: &Task) -> FeatureSet {
    let count = count_features(&task.sizes);
    let meeting = task_generators(task);
    let live = (0..count).filter(|number| meeting.live(*number));
    let chosen: Vec<usize> = live.filter(|_| generator.once_in(2)).collect();
    meeting.combined(&FeatureSet::of(count, &chosen))
}

/// Any list, listed pairs among its members.
pub fn loose_weights(generator: &mut Generator, count: usize) -> FeatureSet {
    let times = generator.choose(&[2, 3, 8, 1 + count / 2]);
    let mut weights = FeatureSet::empty(count);
    weights.extend((0..count).filter(|_| generator.once_in(times)));
    weights
}

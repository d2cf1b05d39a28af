//! Tasks whose pairs are listed by hand: random lists, good, nearly good and any others, and all
//! lists of the smallest tasks.

use super::bays::bay;
use super::tasks::{accepted_task, free_start, loose_task, operator, sizes, state, Scale};
use super::Generator;
use crate::features::{Feature, Features};
use crate::operators::{Entry, Operator};
use crate::task::Task;

/// Sizes of a scale that have two-variable features.
pub fn paired_sizes(generator: &mut Generator, scale: Scale) -> Vec<usize> {
    loop {
        let sizes = sizes(generator, scale);
        if sizes.len() > 1 {
            return sizes;
        }
    }
}

/// Every two-variable feature.
pub fn every_pair(sizes: &[usize]) -> Vec<usize> {
    let features = Features::new(sizes);
    (features.singles()..features.count()).collect()
}

/// Lists more pairs: many, some, or about two.
fn list_more(generator: &mut Generator, task: &mut Task) {
    let more = every_pair(&task.sizes);
    let few = 1 + more.len() / 2;
    let times = generator.choose(&[2, 5, few, few]);
    let more = more.into_iter().filter(|_| generator.once_in(times));
    task.pairs.extend(more);
    task.pairs.sort_unstable();
    task.pairs.dedup();
}

/// Leaves listed pairs out: many, some, or about two.
fn list_fewer(generator: &mut Generator, task: &mut Task) {
    let few = 1 + task.pairs.len() / 2;
    let times = generator.choose(&[2, 5, few, few]);
    task.pairs.retain(|_| !generator.once_in(times));
}

/// Lets a start hold a pair.
pub fn hold_pair(sizes: &[usize], pair: usize, start: &mut [usize]) {
    if let Feature::Mixed(one, other) = Features::new(sizes).feature(pair) {
        start[one.variable] = one.value;
        start[other.variable] = other.value;
    }
}

/// Spoils a good list: with other pairs, with a start that holds one, or with another operator.
fn spoil(generator: &mut Generator, task: &mut Task) {
    for _ in 0..generator.between(1, 2) {
        match generator.below(4) {
            0 => list_more(generator, task),
            1 => list_fewer(generator, task),
            2 if !task.pairs.is_empty() => {
                let pair = generator.choose(&task.pairs);
                hold_pair(&task.sizes, pair, &mut task.start);
            }
            _ => {
                let place = generator.between(0, task.operators.len());
                let other = operator(generator, &task.sizes);
                task.operators.insert(place, other);
            }
        }
    }
}

/// A walk from the start with nearly every pair listed: an operator is idle until the pairs are
/// dropped that the step before it makes true.
fn walk(generator: &mut Generator, sizes: &[usize], most_operators: usize) -> Task {
    let start = state(generator, sizes);
    let mut reached = start.clone();
    let mut operators = Vec::new();
    for _ in 0..generator.between(1, most_operators) {
        let entries = operator(generator, sizes).entries;
        let from_reached = |entry: &Entry| Entry {
            before: reached[entry.variable],
            ..*entry
        };
        let step = Operator {
            entries: entries.iter().map(from_reached).collect(),
        };
        reached = step.applied(&reached);
        operators.push(step);
    }
    // Backwards, one pass over the operators lets one more of them act.
    operators.reverse();
    if generator.once_in(2) {
        generator.shuffle(&mut operators);
    }
    let mut pairs = every_pair(sizes);
    if generator.once_in(2) {
        pairs.retain(|_| !generator.once_in(12));
    }
    Task {
        sizes: sizes.to_vec(),
        goal: state(generator, sizes),
        start,
        pairs,
        operators,
    }
}

/// A task whose list may be good, but seldom is.
pub fn handmade_task(generator: &mut Generator, sizes: &[usize], most_operators: usize) -> Task {
    let mut task = match generator.below(8) {
        0 | 1 => loose_task(generator, sizes, most_operators),
        2 | 3 => walk(generator, sizes, most_operators),
        _ => accepted_task(generator, sizes, most_operators),
    };
    if generator.once_in(2) {
        spoil(generator, &mut task);
    }
    if task.pairs.is_empty() {
        list_more(generator, &mut task);
    }
    if generator.once_in(2) {
        // A free start lets the question of closed pairs be reached.
        free_start(sizes, &task.start, &mut task.pairs);
    }
    task
}

/// A bay's task with its own list, with nearly that, or with every pair.
pub fn handmade_bay(generator: &mut Generator, shape: (usize, usize)) -> Task {
    let mut task = bay(generator, shape).task();
    match generator.below(4) {
        0 => {}
        1 => task.pairs = every_pair(&task.sizes),
        _ => spoil(generator, &mut task),
    }
    task
}

/// Every sublist, by whether each pair is in it.
pub fn sublists(pairs: &[usize]) -> Vec<Vec<usize>> {
    let mut sublists = vec![Vec::new()];
    for pair in pairs {
        let longer = sublists.iter().map(|list| [&list[..], &[*pair]].concat());
        let longer: Vec<Vec<usize>> = longer.collect();
        sublists.extend(longer);
    }
    sublists
}

/// Every operator over two variables of size 2.
pub fn every_operator() -> Vec<Operator> {
    let changes = [(0, 0), (0, 1), (1, 0), (1, 1)];
    let entry = |variable, (before, after)| Entry {
        variable,
        before,
        after,
    };
    let mut operators = Vec::new();
    for one in changes {
        operators.extend([0, 1].map(|variable| vec![entry(variable, one)]));
        operators.extend(changes.map(|other| vec![entry(0, one), entry(1, other)]));
    }
    operators.into_iter().map(Operator::from).collect()
}

/// Every start and every list over two variables of size 2, with these operators.
pub fn every_list(operators: &[Operator]) -> Vec<Task> {
    let sizes = vec![2, 2];
    let mut tasks = Vec::new();
    for pairs in sublists(&every_pair(&sizes)) {
        for start in [[0, 0], [0, 1], [1, 0], [1, 1]] {
            tasks.push(Task {
                sizes: sizes.clone(),
                start: start.to_vec(),
                goal: vec![0, 1],
                pairs: pairs.clone(),
                operators: operators.to_vec(),
            });
        }
    }
    tasks
}

//! Random tasks near 4,096 features. No operator names the last value of the last variable, and the goal has it: so weights separate.

use super::random::Random;
use super::write::{Entry, Parts};
use super::{Case, Kind};

pub fn cases() -> Vec<Case> {
    vec![
        case("45 of size 2", free(1, &[2; 45], 12..33, 250)),
        case(
            "8 of size 12",
            free(2, &[12, 12, 12, 12, 12, 12, 12, 11], 3..6, 500),
        ),
        case("64 and 62", free(3, &[64, 62], 1..3, 2000)),
        case("10 of size 9, pairs", labelled(4, 10, 9, 2..6, 1000)),
    ]
}

fn case(name: &str, parts: Parts) -> Case {
    Case {
        name: format!("dense, {name}"),
        file: parts.file(),
        kind: Kind::Dense,
    }
}

/// A number of entries in a range.
fn length(random: &mut Random, lengths: &std::ops::Range<usize>) -> usize {
    lengths.start + random.below(lengths.len())
}

/// A task without pairs.
fn free(seed: u64, sizes: &[usize], lengths: std::ops::Range<usize>, count: usize) -> Parts {
    let mut random = Random::new(seed);
    let last = sizes.len() - 1;
    let mut named = sizes.to_vec();
    named[last] -= 1;
    let start = state(&mut random, &named);
    let mut goal = state(&mut random, &named);
    goal[last] = named[last];
    let operators = (0..count)
        .map(|_| {
            let length = length(&mut random, &lengths);
            free_operator(&mut random, &named, length)
        })
        .collect();
    Parts {
        sizes: sizes.to_vec(),
        start,
        goal,
        pairs: Vec::new(),
        operators,
    }
}

fn state(random: &mut Random, sizes: &[usize]) -> Vec<usize> {
    sizes.iter().map(|&size| random.below(size)).collect()
}

fn free_operator(random: &mut Random, sizes: &[usize], length: usize) -> Vec<Entry> {
    let mut variables = random.some(length, sizes.len());
    variables.sort_unstable();
    variables
        .into_iter()
        .map(|variable| {
            let size = sizes[variable];
            (variable, random.below(size), random.below(size))
        })
        .collect()
}

/// A task of places that hold a label or nothing (0), each label at most once, and one more variable: operators move the labels of some places
/// round among them.
fn labelled(
    seed: u64,
    places: usize,
    size: usize,
    lengths: std::ops::Range<usize>,
    count: usize,
) -> Parts {
    const LAST_SIZE: usize = 3;
    let mut random = Random::new(seed);
    let mut sizes = vec![size; places];
    sizes.push(LAST_SIZE);
    let mut start: Vec<usize> = (1..=places)
        .map(|label| if label < size { label } else { 0 })
        .collect();
    let mut goal = start.clone();
    start.push(0);
    goal.push(LAST_SIZE - 1);
    let operators = (0..count)
        .map(|_| {
            let length = length(&mut random, &lengths);
            label_operator(&mut random, places, size, length)
        })
        .collect();
    Parts {
        pairs: label_pairs(places, size, LAST_SIZE),
        sizes,
        start,
        goal,
        operators,
    }
}

fn label_operator(random: &mut Random, places: usize, size: usize, length: usize) -> Vec<Entry> {
    let mut variables = random.some(length, places);
    variables.sort_unstable();
    let befores = random.some(length, size);
    let mut afters = befores.clone();
    random.shuffle(&mut afters);
    let moves = befores.into_iter().zip(afters);
    variables
        .into_iter()
        .zip(moves)
        .map(|(variable, (before, after))| (variable, before, after))
        .collect()
}

/// The features that put one label in two places.
fn label_pairs(places: usize, size: usize, last_size: usize) -> Vec<usize> {
    let mut pairs = Vec::new();
    let mut next = places * size + last_size;
    for place in 0..places {
        for _ in place + 1..places {
            pairs.extend((1..size).map(|label| next + label * size + label));
            next += size * size;
        }
        next += size * last_size;
    }
    pairs
}

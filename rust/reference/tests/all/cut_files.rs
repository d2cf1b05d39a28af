//! Places found a second way, by cutting files short, on random damaged files of every kind.

use reference::calls;
use reference::features::count_features;
use reference::kinds::Kind;
use reference::places::{read_bay_file, read_both, read_both_partial, read_task_file, Fault, File};
use reference::sample::bays::{bay, mislabel, shapes};
use reference::sample::damage::damaged_file;
use reference::sample::partials::{self, loose_partial};
use reference::sample::tasks::{
    accepted_task, loose_task, loose_weights, sizes, MEDIUM, NUMBER_EDGES, SMALL,
};
use reference::sample::Generator;
use reference::weights::weight_numbers_of;
use std::collections::BTreeMap;
use std::ops::Range;

/// Where numbers of three bytes at most begin, the next one at the end of the bytes included.
fn beginnings(bytes: &[u8]) -> Vec<usize> {
    let mut beginnings = vec![0];
    let mut place = 0;
    while place < bytes.len() {
        let first = bytes[place..].iter().take(2);
        place += 1 + first.take_while(|byte| **byte >= 128).count();
        beginnings.push(place);
    }
    beginnings.retain(|place| *place <= bytes.len());
    beginnings
}

/// The part at fault, from nothing but numbers of refusals: cut anywhere before the number at fault
/// is read, a file is refused 1.
fn by_cutting(bytes: &[u8], refusal: impl Fn(&[u8]) -> u64) -> Option<Range<usize>> {
    let number = refusal(bytes);
    // What is judged behind the last number is judged behind left-over bytes.
    if number == 0 || refusal(&[bytes, &[0]].concat()) == 5 {
        return None;
    }
    let beginnings = beginnings(bytes);
    if number == 1 {
        return Some(*beginnings.last()?..bytes.len());
    }
    let end = (0..bytes.len()).find(|length| refusal(&bytes[..length + 1]) != 1)? + 1;
    let mut before = beginnings.into_iter().rev();
    Some(before.find(|place| *place < end)?..end)
}

/// How often each refusal was met, with a place and without.
type Met = BTreeMap<(u64, bool), usize>;

fn number_of<Read>(read: &Result<Read, Fault>) -> u64 {
    read.as_ref()
        .map_or_else(|fault| fault.refusal.number(), |_| 0)
}

/// Holds what a reader says of a file against what cutting says.
fn hold<Read>(
    met: &mut Met,
    file: File,
    bytes: &[u8],
    reader: impl Fn(&[u8]) -> Result<Read, Fault>,
) {
    let read = reader(bytes);
    let number = number_of(&read);
    let expected = by_cutting(bytes, |cut| number_of(&reader(cut)));
    let part = read.err().and_then(|fault| fault.part);
    assert!(part.iter().all(|part| part.file == file));
    let found = part.map(|part| part.bytes);
    assert_eq!(found, expected, "refused {number}: {bytes:x?}");
    *met.entry((number, found.is_some())).or_default() += 1;
}

fn assert_met(met: &Met, due: &[(u64, bool)]) {
    for kind in due {
        let count = met.get(kind).copied().unwrap_or(0);
        assert!(count >= 10, "{kind:?}: {met:?}");
    }
    let other = met.keys().find(|kind| !due.contains(kind));
    assert_eq!(other, None, "{met:?}");
}

const ROUNDS: usize = 6_000;

/// Task files of some kind: whole ones, and damaged ones that may be of the other kind.
fn tasks_of(kind: Kind, seed: u64) {
    let mut generator = Generator::new(seed);
    let mut met = Met::new();
    for _ in 0..ROUNDS {
        let scale = generator.choose(&[SMALL, SMALL, MEDIUM]);
        let sizes = sizes(&mut generator, scale);
        let task = loose_task(&mut generator, &sizes, 4);
        let file = if generator.once_in(10) {
            task.file_of(kind)
        } else {
            damaged_file(&mut generator, &task.numbers_of(kind))
        };
        hold(&mut met, File::Task, &file, read_task_file);
    }
    let placed = [1, 2, 3, 4, 12, 13].map(|number| (number, true));
    let unplaced = [0, 5, 6, 7].map(|number| (number, false));
    assert_met(&met, &[&placed[..], &unplaced].concat());
}

#[test]
fn tasks() {
    tasks_of(Kind::Old, 0x9B01);
}

#[test]
fn tasks_of_the_new_kind() {
    tasks_of(Kind::New, 0x9B06);
}

/// Weight files of some kind beside accepted tasks.
fn weights_of(kind: Kind, seed: u64) -> Met {
    let mut generator = Generator::new(seed);
    let mut met = Met::new();
    for _ in 0..ROUNDS {
        let scale = generator.choose(&[SMALL, MEDIUM]);
        let sizes = sizes(&mut generator, scale);
        let task = accepted_task(&mut generator, &sizes, 2);
        let weights = loose_weights(&mut generator, task.pairing().features.count());
        let file = damaged_file(&mut generator, &weight_numbers_of(kind, &weights));
        let task = task.file();
        hold(&mut met, File::Weights, &file, |cut| {
            read_both(kind, &task, cut)
        });
    }
    met
}

#[test]
fn weights() {
    let met = weights_of(Kind::Old, 0x9B02);
    let placed = [1, 3, 4, 12, 13].map(|number| (number, true));
    assert_met(&met, &[&placed[..], &[(0, false), (5, false)]].concat());
}

/// Without 4.
#[test]
fn weights_of_the_new_kind() {
    let met = weights_of(Kind::New, 0x9B07);
    let placed = [1, 3, 12, 13].map(|number| (number, true));
    assert_met(&met, &[&placed[..], &[(0, false), (5, false)]].concat());
}

#[test]
fn partial_files() {
    let mut generator = Generator::new(0x9B03);
    let mut met = Met::new();
    for _ in 0..ROUNDS {
        let sizes = partials::sizes(&mut generator, SMALL);
        let partial = loose_partial(&mut generator, &sizes, 4);
        let file = if generator.once_in(10) {
            partial.file()
        } else {
            damaged_file(&mut generator, &partial.numbers())
        };
        hold(&mut met, File::Task, &file, |cut| {
            read_both_partial(Kind::Old, cut, &[0])
        });
    }
    let placed = [1, 2, 3, 4, 12, 13].map(|number| (number, true));
    let unplaced = [0, 5, 6, 7].map(|number| (number, false));
    assert_met(&met, &[&placed[..], &unplaced].concat());
}

#[test]
fn bays() {
    let mut generator = Generator::new(0x9B04);
    let mut met = Met::new();
    for _ in 0..ROUNDS {
        let shape = generator.choose(&shapes());
        let mut bay = bay(&mut generator, shape);
        if generator.once_in(3) {
            mislabel(&mut generator, &mut bay);
        }
        let file = if generator.once_in(3) {
            bay.file()
        } else {
            damaged_file(&mut generator, &bay.numbers())
        };
        hold(&mut met, File::Task, &file, read_bay_file);
    }
    let placed = [1, 2, 3, 12, 13].map(|number| (number, true));
    let unplaced = [0, 5, 10, 11].map(|number| (number, false));
    assert_met(&met, &[&placed[..], &unplaced].concat());
}

/// Some features on both sides of 16,384, where numbers become longer.
fn features_near_the_border(generator: &mut Generator, count: usize) -> Vec<usize> {
    (16_370..count).filter(|_| generator.once_in(3)).collect()
}

/// Pairs and weights of two bytes and of three.
#[test]
fn long_numbers() {
    let mut generator = Generator::new(0x9B05);
    let (mut met, mut met_in_weights) = (Met::new(), Met::new());
    for _ in 0..1_000 {
        let sizes = generator.choose(&NUMBER_EDGES);
        let count = count_features(sizes);
        let mut task = accepted_task(&mut generator, sizes, 1);
        task.pairs = features_near_the_border(&mut generator, count);
        let file = damaged_file(&mut generator, &task.numbers());
        hold(&mut met, File::Task, &file, read_task_file);
        task.pairs.clear();
        let task = task.file();
        let mut weights = features_near_the_border(&mut generator, count + 2);
        weights.insert(0, weights.len());
        let file = damaged_file(&mut generator, &weights);
        let read = |cut: &[u8]| read_both(Kind::Old, &task, cut);
        hold(&mut met_in_weights, File::Weights, &file, read);
    }
    let placed = [1, 3, 4, 12, 13].map(|number| (number, true));
    let without = [&placed[..], &[(0, false), (5, false)]].concat();
    assert_met(&met_in_weights, &without);
    // Too many variables or features too, and a start that holds a pair hardly ever.
    met.retain(|(number, _), _| ![6, 7].contains(number));
    assert_met(&met, &[&without[..], &[(2, true)]].concat());
}

/// Case B with its weights cut at every length: what is there of the number that is cut is shown.
#[test]
fn every_length() {
    let task = [
        2, 2, 2, 0, 0, 0, 1, 0, 4, 2, 0, 0, 1, 1, 0, 1, 2, 0, 0, 1, 1, 1, 0, 2, 0, 1, 0, 1, 1, 0,
        2, 0, 1, 0, 1, 0, 1,
    ];
    let mut room = [9; 2];
    for length in 0..task.len() {
        assert_eq!(calls::display(&task[..length], &[2, 0, 2], &mut room), 0);
        assert_eq!(room, [length as u64, 0]);
    }
    for length in 0..3 {
        let weights = &[2, 0, 2][..length];
        assert_eq!(calls::display(&task, weights, &mut room), 1 << 32);
        assert_eq!(room, [length as u64, 0]);
    }
    assert_eq!(calls::display(&task, &[2, 0, 2], &mut room), 0);
    assert_eq!(room, [0, 0]);
}

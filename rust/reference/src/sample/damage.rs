//! Damage to files: as bytes, and as lists of numbers before they are written.

use super::Generator;
use crate::limits::{BEFORE, LARGEST, NOW};
use crate::numbers::encode;

/// Numbers at the edges of the rules' limits.
const EDGES: [usize; 19] = [
    0,
    1,
    2,
    3,
    9,
    10,
    16,
    17,
    63,
    64,
    65,
    127,
    128,
    BEFORE.features,
    BEFORE.largest(),
    BEFORE.largest() + 1,
    NOW.features - 1,
    NOW.features,
    LARGEST,
];

fn damage_number(generator: &mut Generator, number: usize) -> usize {
    match generator.below(5) {
        0 => number + 1,
        1 => number.saturating_sub(1),
        2 => generator.choose(&EDGES),
        3 => generator.below(8),
        _ => generator.below(300),
    }
    .min(LARGEST)
}

/// Changes, repeats, drops or swaps some numbers; what follows may still be judged.
fn damage_numbers(generator: &mut Generator, numbers: &mut Vec<usize>) {
    for _ in 0..generator.between(1, 3) {
        if numbers.is_empty() {
            return;
        }
        let place = generator.below(numbers.len());
        match generator.below(8) {
            0 => {
                numbers.remove(place);
            }
            1 => numbers.insert(place, numbers[place]),
            2 if place > 0 => numbers.swap(place - 1, place),
            _ => numbers[place] = damage_number(generator, numbers[place]),
        }
    }
}

/// Bytes that start a longer number than is due, or end one badly, and the first and the last
/// numbers of two bytes and of three.
const FORMS: [&[u8]; 11] = [
    &[0x80],
    &[0x80, 0x00],
    &[0x80, 0x80],
    &[0x80, 0x80, 0x00],
    &[0x80, 0x80, 0x80],
    &[0x80, 0x80, 0x80, 0x00],
    &[0x80, 0x80, 0x80, 0x01],
    &[0x80, 0x01],
    &[0xFF, 0x7F],
    &[0x80, 0x80, 0x01],
    &[0xFF, 0xFF, 0x7F],
];

fn damage_bytes(generator: &mut Generator, bytes: &mut Vec<u8>) {
    let place = generator.below(bytes.len() + 1);
    match generator.below(7) {
        0 => bytes.truncate(place),
        1 => {
            let count = generator.between(1, 3);
            bytes.extend(generator.bytes(count));
        }
        2 => {
            let form = generator.choose(&FORMS);
            bytes.splice(place..place, form.iter().copied());
        }
        3 if place < bytes.len() => {
            bytes[place] = generator.word() as u8;
        }
        4 if place < bytes.len() => {
            // The same number with a needless group.
            bytes[place] |= 0x80;
            bytes.insert(place + 1, 0);
        }
        5 if place < bytes.len() => {
            bytes.remove(place);
        }
        _ if place < bytes.len() => bytes[place] ^= 1 << generator.below(8),
        _ => bytes.push(0),
    }
}

/// Bad forms of a number: with a needless second or third group, with a group too many, cut behind
/// its first group or its second.
pub fn bad_forms(number: usize) -> [Vec<u8>; 7] {
    let group = |place: u32| 0x80 | (number >> (7 * place) & 0x7F) as u8;
    let (low, middle, high) = (group(0), group(1), group(2));
    [
        vec![low, 0x00],
        vec![low, middle, 0x00],
        vec![low, middle, high],
        vec![low, middle, high, 0x00],
        vec![low, middle, high, 0x01],
        vec![low],
        vec![low, middle],
    ]
}

/// A file of these numbers up to one in a bad form; behind it the file goes on or ends.
fn misformed_file(generator: &mut Generator, numbers: &[usize]) -> Vec<u8> {
    let place = generator.below(numbers.len());
    let form = generator.choose(&bad_forms(numbers[place]));
    let rest = if generator.once_in(2) {
        encode(&numbers[place + 1..])
    } else {
        Vec::new()
    };
    [encode(&numbers[..place]), form, rest].concat()
}

/// A file of these numbers with one fault or several at once.
pub fn damaged_file(generator: &mut Generator, numbers: &[usize]) -> Vec<u8> {
    let kind = generator.below(4);
    if kind == 0 {
        return misformed_file(generator, numbers);
    }
    let mut numbers = numbers.to_vec();
    if kind != 1 {
        damage_numbers(generator, &mut numbers);
    }
    let mut bytes = encode(&numbers);
    if kind != 2 {
        for _ in 0..generator.between(1, 2) {
            damage_bytes(generator, &mut bytes);
        }
    }
    bytes
}

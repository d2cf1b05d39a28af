//! Partial files whose kept operators are about as many as a number of two bytes counts, or as any
//! number does.

use super::{ample_room, room};
use crate::both::Both;
use reference::limits::{BEFORE, LARGEST};
use reference::operators::{Entry, Operator};
use reference::partial::{built_sizes, LeftOut, Partial};
use reference::sample::handmade::hold_pair;
use reference::sample::kinds;
use reference::sample::partials::{accepted_partial, completed};
use reference::sample::Generator;
use reference::workspace::words_due;

/// The operator that sets a value to itself; every list of pairs is closed under it.
pub(super) fn staying(generator: &mut Generator, sizes: &[usize]) -> Operator {
    let variable = generator.below(sizes.len());
    let value = generator.below(sizes[variable]);
    Operator {
        entries: [Entry {
            variable,
            before: value,
            after: value,
        }]
        .into(),
    }
}

/// The calls whose count of kept operators is at its limit or past it.
fn judge_count(both: &mut Both, generator: &mut Generator, partial: &Partial, left_out: LeftOut) {
    let file = partial.file();
    both.check_partial(&file, &[1, 0]);
    // Bad weights show whether the count was judged at all.
    let words = room(generator, 2);
    both.display_partial(&file, &[2, 0, 0], &words);
    // Forgetting operators and longer numbers don't make the file twice as long.
    let room = generator.bytes(2 * file.len());
    match left_out {
        LeftOut::Lean => both.build_partial_lean(&file, &room),
        _ => both.build_partial(&file, &room),
    };
}

/// Silences a task of so many operators, though what is written is refused where it is read.
fn silence(both: &mut Both, generator: &mut Generator, partial: &Partial) {
    let file = partial.file();
    let room = generator.bytes(file.len());
    let task = kinds::file(generator, &completed(partial));
    let written = both.silence(&task, &partial.marks(), &room);
    assert_eq!(written.memory, file, "silencing asks for no count");
}

/// A small file, mostly one of which even the letter leaves something out.
fn small_partial(generator: &mut Generator) -> Partial {
    loop {
        let sizes = generator.choose(&[vec![60], vec![2, 2], vec![3, 2], vec![1, 2, 1]]);
        let partial = accepted_partial(generator, &sizes, 3);
        let kept = partial.forgetting_operators(LeftOut::ByLetter).len();
        if kept < sizes.iter().sum() || generator.once_in(40) {
            return partial;
        }
    }
}

/// Files with as many kept operators as a number of two bytes counts, and with one more.
pub fn counted(both: &mut Both, generator: &mut Generator) {
    let mut partial = small_partial(generator);
    let mut few = partial.operators.clone();
    few.push(staying(generator, &partial.sizes));
    let left_out = generator.choose(&[LeftOut::ByLetter, LeftOut::Lean]);
    let most = BEFORE.largest() - partial.forgetting_operators(left_out).len();
    partial.operators = (0..most).map(|_| generator.choose(&few)).collect();
    judge_count(both, generator, &partial, left_out);
    let room = ample_room(generator, words_due(&built_sizes(&partial.sizes)));
    both.open_partial(&partial.file(), &room);
    partial.operators.push(few[0].clone());
    judge_count(both, generator, &partial, left_out);
    silence(both, generator, &partial);
    both.open_partial(&partial.file(), &room);
}

/// Files with as many kept operators as a number counts, and with one more.
pub fn counted_in_millions(both: &mut Both, generator: &mut Generator) {
    let (mut partial, left_out) = left_out_somewhere(generator);
    let most = LARGEST - partial.forgetting_operators(left_out).len();
    partial.operators = vec![staying(generator, &partial.sizes); most];
    judge_count(both, generator, &partial, left_out);
    partial.operators.push(staying(generator, &partial.sizes));
    judge_count(both, generator, &partial, left_out);
    silence(both, generator, &partial);
    let room = generator.words(2);
    both.open_partial(&partial.file(), &room);
    // A pair that the start holds is judged after the count.
    hold_pair(&partial.sizes, partial.pairs[0], &mut partial.start);
    both.check_partial(&partial.file(), &[1, 0]);
}

/// A small file of which one call leaves more operators out than the other, and some stay.
fn left_out_somewhere(generator: &mut Generator) -> (Partial, LeftOut) {
    loop {
        let partial = small_partial(generator);
        let kept = |left_out| partial.forgetting_operators(left_out).len();
        let (letter, lean) = (kept(LeftOut::ByLetter), kept(LeftOut::Lean));
        if letter < kept(LeftOut::Nothing) && lean < letter && lean > 0 {
            let left_out = generator.choose(&[LeftOut::ByLetter, LeftOut::Lean]);
            return (partial, left_out);
        }
    }
}

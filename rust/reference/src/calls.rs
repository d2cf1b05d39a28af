//! The public calls, with the numbers that they hand back and the memory that they leave.

use crate::bay::read_bay;
use crate::feature_set::{words_for, FeatureSet};
use crate::kinds::{kind_of, Kind};
use crate::limits::NOW;
use crate::line::{check_line as checker_line, line as finder_line};
use crate::mending::{dropped as dropped_pairs, first_fault, mended, PairFault};
use crate::partial::{read_built, silenced, LeftOut};
use crate::places::{
    read_bay_file, read_both, read_both_partial, read_task_file_of, shown, Fault, File, Part,
};
use crate::refusal::Refusal;
use crate::separation::{judged, judged_partial, Verdict};
use crate::task::{read_numbers, read_task, Task};
use crate::weights::{weight_file as file_of, weight_file_of};
use crate::workspace::{Record, Workspace};

/// One step between the cases of a result.
const CASE: u64 = 1 << 32;

/// Accepted, opened, separated, edited, built or written.
pub fn done(value: usize) -> u64 {
    value as u64
}

/// Ends alike, or none.
pub fn denied() -> u64 {
    CASE
}

/// The operator that breaks.
pub fn broken(operator: usize) -> u64 {
    2 * CASE + operator as u64
}

/// The start holds a listed pair.
pub fn held() -> u64 {
    CASE
}

/// What is shown lies in the weights.
pub fn in_weights() -> u64 {
    CASE
}

/// A pair is unclosed; its operator is told in lent words.
pub fn unclosed() -> u64 {
    2 * CASE
}

pub fn refused(refusal: Refusal) -> u64 {
    3 * CASE + refusal.number()
}

/// The number of a result or of its refusal.
pub fn settle(result: Result<u64, impl Into<Refusal>>) -> u64 {
    result.unwrap_or_else(|refusal| refused(refusal.into()))
}

/// Copies what is due into lent room, leaves the rest of the room, and tells how much was due.
pub fn fill<Item: Copy>(room: &mut [Item], due: &[Item]) -> Result<u64, Refusal> {
    let (filled, _) = room.split_at_mut_checked(due.len()).ok_or(Refusal::Room)?;
    filled.copy_from_slice(due);
    Ok(done(due.len()))
}

pub fn check(task: &[u8], weights: &[u8]) -> u64 {
    settle(judged(Kind::Old, task, weights).map(told))
}

pub fn check_new(task: &[u8], weights: &[u8]) -> u64 {
    settle(judged(Kind::New, task, weights).map(told))
}

/// A verdict's number.
fn told(verdict: Verdict) -> u64 {
    match verdict {
        Verdict::Accepted => done(0),
        Verdict::EndsAlike => denied(),
        Verdict::Operator(place) => broken(place),
    }
}

pub fn open(task: &[u8], room: &mut [u64]) -> u64 {
    settle(read_task(task).and_then(|task| opened(&task, room)))
}

/// The words of an accepted task, in lent room.
fn opened(task: &Task, room: &mut [u64]) -> Result<u64, Refusal> {
    fill(room, &Workspace::of(task).words())
}

pub fn find(workspace: &[u64], room: &mut [u64]) -> u64 {
    settle(try_find(workspace, room))
}

fn try_find(workspace: &[u64], room: &mut [u64]) -> Result<u64, Refusal> {
    let workspace = Workspace::read(workspace)?;
    // The room is judged even where the answer is none.
    if room.len() < words_for(workspace.slots.len()) {
        return Err(Refusal::Room);
    }
    match workspace.find() {
        Some(weights) => {
            fill(room, weights.words())?;
            Ok(done(0))
        }
        None => Ok(denied()),
    }
}

/// Reads a workspace, edits it, and writes it back over its own words.
fn edit<Change>(words: &mut [u64], change: Change) -> u64
where
    Change: FnOnce(&mut Workspace) -> Result<(), Refusal>,
{
    settle(try_edit(words, change))
}

fn try_edit<Change>(words: &mut [u64], change: Change) -> Result<u64, Refusal>
where
    Change: FnOnce(&mut Workspace) -> Result<(), Refusal>,
{
    let mut workspace = Workspace::read(words)?;
    change(&mut workspace)?;
    fill(words, &workspace.words())?;
    Ok(done(0))
}

pub fn add_operator(words: &mut [u64], record: &Record) -> u64 {
    edit(words, |workspace| workspace.add_operator(record))
}

pub fn replace_start(words: &mut [u64], values: &[u64]) -> u64 {
    edit(words, |workspace| workspace.replace_start(values))
}

pub fn replace_goal(words: &mut [u64], values: &[u64]) -> u64 {
    edit(words, |workspace| workspace.replace_goal(values))
}

pub fn build(bay: &[u8], room: &mut [u8]) -> u64 {
    settle(read_bay(bay).and_then(|bay| fill(room, &bay.task().file())))
}

pub fn open_partial(partial: &[u8], room: &mut [u64]) -> u64 {
    let built = read_built(partial, LeftOut::ByLetter);
    settle(built.and_then(|task| opened(&task, room)))
}

pub fn check_partial(partial: &[u8], weights: &[u8]) -> u64 {
    settle(judged_partial(Kind::Old, partial, weights).map(told))
}

pub fn check_partial_new(partial: &[u8], weights: &[u8]) -> u64 {
    settle(judged_partial(Kind::New, partial, weights).map(told))
}

pub fn build_partial(partial: &[u8], room: &mut [u8]) -> u64 {
    let built = read_built(partial, LeftOut::ByLetter);
    settle(built.and_then(|task| fill(room, &task.file())))
}

pub fn build_partial_lean(partial: &[u8], room: &mut [u8]) -> u64 {
    let built = read_built(partial, LeftOut::Lean);
    settle(built.and_then(|task| fill(room, &task.file())))
}

pub fn silence(task: &[u8], marks: &[u8], room: &mut [u8]) -> u64 {
    let partial = read_task(task).and_then(|task| silenced(&task, marks));
    settle(partial.and_then(|partial| fill(room, &partial.file())))
}

pub fn mend(task: &[u8], room: &mut [u8]) -> u64 {
    let kind = kind_of(task);
    settle(read_numbers(task).and_then(|task| fill(room, &mended(&task).file_of(kind))))
}

pub fn dropped(task: &[u8], room: &mut [u8]) -> u64 {
    settle(read_numbers(task).and_then(|task| fill(room, &file_of(&dropped_pairs(&task)))))
}

pub fn to_new(task: &[u8], room: &mut [u8]) -> u64 {
    settle(converted(Kind::Old, task, room))
}

pub fn to_old(task: &[u8], room: &mut [u8]) -> u64 {
    settle(converted(Kind::New, task, room))
}

/// A task file that came in the kind that is due, written in the other one.
fn converted(due: Kind, task: &[u8], room: &mut [u8]) -> Result<u64, Fault> {
    let task = read_task_file_of(due, task)?;
    Ok(fill(room, &task.file_of(due.other()))?)
}

pub fn weights_to_new(task: &[u8], weights: &[u8], room: &mut [u8]) -> u64 {
    settle(converted_weights(Kind::Old, task, weights, room))
}

pub fn weights_to_old(task: &[u8], weights: &[u8], room: &mut [u8]) -> u64 {
    settle(converted_weights(Kind::New, task, weights, room))
}

/// The same of weights, beside a task of either kind.
fn converted_weights(
    due: Kind,
    task: &[u8],
    weights: &[u8],
    room: &mut [u8],
) -> Result<u64, Fault> {
    let (_, weights) = read_both(due, task, weights)?;
    Ok(fill(room, &weight_file_of(due.other(), &weights))?)
}

pub fn pair_fault(task: &[u8], room: &mut [u64]) -> u64 {
    settle(try_pair_fault(task, room))
}

fn try_pair_fault(task: &[u8], room: &mut [u64]) -> Result<u64, Refusal> {
    let task = read_numbers(task)?;
    // The room is judged even where nothing is written, or one word.
    let [first, second, ..] = room else {
        return Err(Refusal::Room);
    };
    Ok(match first_fault(&task) {
        None => done(0),
        Some(PairFault::Held(pair)) => {
            *first = pair as u64;
            held()
        }
        Some(PairFault::Unclosed { pair, operator }) => {
            (*first, *second) = (pair as u64, operator as u64);
            unclosed()
        }
    })
}

pub fn display(task: &[u8], weights: &[u8], room: &mut [u64]) -> u64 {
    settle(show(&shown(read_both(Kind::Old, task, weights)), room))
}

pub fn display_new(task: &[u8], weights: &[u8], room: &mut [u64]) -> u64 {
    settle(show(&shown(read_both(Kind::New, task, weights)), room))
}

pub fn display_partial(partial: &[u8], weights: &[u8], room: &mut [u64]) -> u64 {
    let read = read_both_partial(Kind::Old, partial, weights);
    settle(show(&shown(read), room))
}

pub fn display_bay(bay: &[u8], room: &mut [u64]) -> u64 {
    settle(show(&shown(read_bay_file(bay)), room))
}

/// Tells where a part begins and how long it is, in the first two of the lent words.
fn show(part: &Part, room: &mut [u64]) -> Result<u64, Refusal> {
    let [beginning, length, ..] = room else {
        return Err(Refusal::Room);
    };
    *beginning = part.bytes.start as u64;
    *length = part.bytes.len() as u64;
    Ok(match part.file {
        File::Task => done(0),
        File::Weights => in_weights(),
    })
}

pub fn line(input: &[u8], room: &mut [u8]) -> u64 {
    deliver(&finder_line(input), room)
}

pub fn check_line(task: &[u8], weights: &[u8], room: &mut [u8]) -> u64 {
    deliver(&checker_line(task, weights), room)
}

/// Puts a line into lent room.
fn deliver(text: &str, room: &mut [u8]) -> u64 {
    settle(fill(room, text.as_bytes()))
}

pub fn weight_file(words: &[u64], room: &mut [u8]) -> u64 {
    settle(try_weight_file(words, room))
}

fn try_weight_file(words: &[u64], room: &mut [u8]) -> Result<u64, Refusal> {
    let weights = FeatureSet::from_words(words);
    // Without a task the range ends at the most features that any task has.
    if weights.highest().is_some_and(|last| last >= NOW.features) {
        return Err(Refusal::Range);
    }
    fill(room, &file_of(&weights))
}

//! The face of the proved static library: the only place where a verdict comes from.

mod face;
mod kinds;
mod pairs;
mod places;
mod workspace;

use crate::fault::Fault;
use crate::sizes;
use face::*;
pub use kinds::{converted, converted_weights};
pub use pairs::{dropped, mend, pair_fault, Reason};
pub use places::{display, display_bay, display_new, display_partial, Holder, Part, NO_WEIGHTS};
pub use workspace::{words_due, Workspace, MOST_WORDS};

// Room for the largest results that the rules' limits allow.
// A task of a bay: 9,845 bytes, for four by four slots and labels that are all different.
const BAY_TASK_BYTES: usize = 1 << 14;
// A count and 32,768 features, each a number of three bytes at most.
const WEIGHT_BYTES: usize = 3 * (1 + 32_768);
const LINE_BYTES: usize = 64;
// What is built of a file is never so much longer: there may be three bytes for each of 32,768 pairs,
// which have other numbers, and four for each operator that forgets one of 64 values of 64 variables.
const MORE_BYTES: usize = 1 << 17;

/// What one returned word says: its case and its value.
#[derive(Clone, Copy)]
enum Answer {
    Yes(u32),
    No,
    Operator(u32),
    Refused(u32),
}

fn answer(call: &str, word: u64) -> Result<Answer, Fault> {
    let value = word as u32;
    match word >> 32 {
        0 => Ok(Answer::Yes(value)),
        1 => Ok(Answer::No),
        2 => Ok(Answer::Operator(value)),
        3 => Ok(Answer::Refused(value)),
        _ => Err(unknown(call, word)),
    }
}

// An answer outside the table must never be taken for a verdict.
fn unknown(call: &str, word: u64) -> Fault {
    Fault::Failure(format!(
        "the library's {call} gave an answer that this tool does not know ({word:#x})"
    ))
}

/// The checker's verdict on a list of weights.
#[derive(Clone, Copy, PartialEq, Eq, Debug)]
pub enum Verdict {
    Accepted,
    EndsAlike,
    Operator(u32),
}

/// A call that checks weights against a file.
type Check = unsafe extern "C" fn(*const u8, usize, *const u8, usize) -> u64;

fn checked(name: &str, call: Check, file: &[u8], weights: &[u8]) -> Result<Verdict, Fault> {
    // SAFETY: both slices live through the call, which only reads them.
    let word = unsafe { call(file.as_ptr(), file.len(), weights.as_ptr(), weights.len()) };
    match answer(name, word)? {
        Answer::Yes(_) => Ok(Verdict::Accepted),
        Answer::No => Ok(Verdict::EndsAlike),
        Answer::Operator(number) => Ok(Verdict::Operator(number)),
        Answer::Refused(number) => Err(Fault::Refused(number)),
    }
}

/// Asks the checker whether the weights separate start from goal.
pub fn check(task: &[u8], weights: &[u8]) -> Result<Verdict, Fault> {
    checked("check", florumeja_check, task, weights)
}

/// The same, and the weights are a new weight file.
pub fn check_new(task: &[u8], weights: &[u8]) -> Result<Verdict, Fault> {
    checked("check_new", florumeja_check_new, task, weights)
}

/// Asks the same about a partial file's built task, by the letter.
pub fn check_partial(partial: &[u8], weights: &[u8]) -> Result<Verdict, Fault> {
    checked("check_partial", florumeja_check_partial, partial, weights)
}

/// The same, and the weights are a new weight file.
pub fn check_partial_new(partial: &[u8], weights: &[u8]) -> Result<Verdict, Fault> {
    checked(
        "check_partial_new",
        florumeja_check_partial_new,
        partial,
        weights,
    )
}

/// The line that the checker's program prints for the same two files, without its line end.
pub fn check_line(task: &[u8], weights: &[u8]) -> Result<String, Fault> {
    let line = written("check_line", LINE_BYTES, |room: &mut [u8]| {
        // SAFETY: all slices live through the call, and only the room is written.
        unsafe {
            florumeja_check_line(
                task.as_ptr(),
                task.len(),
                weights.as_ptr(),
                weights.len(),
                room.as_mut_ptr(),
                room.len(),
            )
        }
    })?;
    let line = String::from_utf8(line).ok();
    let line = line.and_then(|line| line.strip_suffix('\n').map(str::to_string));
    line.ok_or_else(|| Fault::Failure("the library's check_line wrote no line".into()))
}

/// Opens a task file.
pub fn open(task: &[u8]) -> Result<Workspace, Fault> {
    opened("open", sizes::of_task(task), |room| {
        // SAFETY: both slices live through the call, and only the room is written.
        unsafe { florumeja_open(task.as_ptr(), task.len(), room.as_mut_ptr(), room.len()) }
    })
}

/// Opens a partial file's built task, by the letter.
pub fn open_partial(partial: &[u8]) -> Result<Workspace, Fault> {
    opened("open_partial", sizes::of_built(partial), |room| {
        let (from, length) = (partial.as_ptr(), partial.len());
        // SAFETY: both slices live through the call, and only the room is written.
        unsafe { florumeja_open_partial(from, length, room.as_mut_ptr(), room.len()) }
    })
}

fn opened(
    name: &str,
    sizes: Option<Vec<usize>>,
    call: impl FnOnce(&mut [u64]) -> u64,
) -> Result<Workspace, Fault> {
    let room = workspace::room(&sizes.unwrap_or_default());
    let words = written(name, room, call)?;
    let misfit = || format!("the library's {name} wrote a workspace of odd length");
    Workspace::new(words).ok_or_else(|| Fault::Failure(misfit()))
}

/// The least separating set of features.
pub struct Weights {
    /// The features, increasing.
    pub features: Vec<usize>,
    /// The same as a weight file.
    pub file: Vec<u8>,
}

/// Looks for the least separating set of features; none is an answer, not a fault.
pub fn find(workspace: &Workspace) -> Result<Option<Weights>, Fault> {
    let words = workspace.words();
    let mut room = vec![0u64; workspace.set_words()];
    // SAFETY: both slices live through the call, and only the room is written.
    let word =
        unsafe { florumeja_find(words.as_ptr(), words.len(), room.as_mut_ptr(), room.len()) };
    match answer("find", word)? {
        Answer::Yes(_) => Ok(Some(Weights {
            features: members(&room),
            file: weight_file(&room)?,
        })),
        Answer::No => Ok(None),
        Answer::Refused(number) => Err(Fault::Refused(number)),
        Answer::Operator(_) => Err(unknown("find", word)),
    }
}

/// Builds a task file from a bay file.
pub fn build(bay: &[u8]) -> Result<Vec<u8>, Fault> {
    written("build", BAY_TASK_BYTES, |room| {
        // SAFETY: both slices live through the call, and only the room is written.
        unsafe { florumeja_build(bay.as_ptr(), bay.len(), room.as_mut_ptr(), room.len()) }
    })
}

/// Builds the task file of a partial file, by the letter.
pub fn build_partial(partial: &[u8]) -> Result<Vec<u8>, Fault> {
    let (from, length) = (partial.as_ptr(), partial.len());
    written("build_partial", length + MORE_BYTES, |room: &mut [u8]| {
        // SAFETY: both slices live through the call, and only the room is written.
        unsafe { florumeja_build_partial(from, length, room.as_mut_ptr(), room.len()) }
    })
}

/// The same without the operators that forget a named variable.
pub fn build_partial_lean(partial: &[u8]) -> Result<Vec<u8>, Fault> {
    let (from, length) = (partial.as_ptr(), partial.len());
    let room = length + MORE_BYTES;
    written("build_partial_lean", room, |room: &mut [u8]| {
        // SAFETY: both slices live through the call, and only the room is written.
        unsafe { florumeja_build_partial_lean(from, length, room.as_mut_ptr(), room.len()) }
    })
}

/// Makes a partial file: a task with the goal values that are marked 1, and no others.
pub fn silence(task: &[u8], marks: &[u8]) -> Result<Vec<u8>, Fault> {
    written("silence", task.len() + MORE_BYTES, |room: &mut [u8]| {
        // SAFETY: all slices live through the call, and only the room is written.
        unsafe {
            florumeja_silence(
                task.as_ptr(),
                task.len(),
                marks.as_ptr(),
                marks.len(),
                room.as_mut_ptr(),
                room.len(),
            )
        }
    })
}

// The weight file of a set of features.
fn weight_file(words: &[u64]) -> Result<Vec<u8>, Fault> {
    written("weight_file", WEIGHT_BYTES, |room| {
        // SAFETY: both slices live through the call, and only the room is written.
        unsafe { florumeja_weight_file(words.as_ptr(), words.len(), room.as_mut_ptr(), room.len()) }
    })
}

// Lends room to a call that writes, and keeps just what it wrote.
fn written<T: Clone + Default>(
    name: &str,
    size: usize,
    call: impl FnOnce(&mut [T]) -> u64,
) -> Result<Vec<T>, Fault> {
    let mut room = lent(size)?;
    let word = call(&mut room);
    match answer(name, word)? {
        Answer::Yes(due) if due as usize <= size => {
            room.truncate(due as usize);
            Ok(room)
        }
        Answer::Refused(number) => Err(Fault::Refused(number)),
        _ => Err(unknown(name, word)),
    }
}

// Room that cannot be had is a fault that is told, and no reason to break off without a word.
fn lent<T: Clone + Default>(size: usize) -> Result<Vec<T>, Fault> {
    let mut room = Vec::new();
    if room.try_reserve_exact(size).is_err() {
        let megabytes = (size * size_of::<T>()).div_ceil(1_000_000);
        return Err(Fault::Failure(format!(
            "there is not enough memory: this takes {megabytes} MB more"
        )));
    }
    room.resize(size, T::default());
    Ok(room)
}

fn members(words: &[u64]) -> Vec<usize> {
    let listed = |feature: &usize| words[feature / 64] >> (feature % 64) & 1 == 1;
    (0..words.len() * 64).filter(listed).collect()
}

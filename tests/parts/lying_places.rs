//! For tests/tool: the calls that show a place, which do not fit to the refusal or to the file. Every task
//! has two variables of eleven values; its start says which lie is told, and by which number it is refused.
//! The number behind the goal's first value is at fault if it is 11 or more.

use super::{REFUSED, UNKNOWN};

/// Where the number at fault stands.
const PLACE: usize = 6;
const IN_WEIGHTS: u64 = 1 << 32;

fn asked(file: &[u8]) -> Option<(u8, u8)> {
    match file {
        [2, 11, 11, lie, number, ..] => Some((*lie, *number)),
        _ => None,
    }
}

/// By which number a task asks to be refused.
pub unsafe fn refusal(task: *const u8, count: usize) -> Option<u64> {
    let (_, number) = asked(std::slice::from_raw_parts(task, count))?;
    Some(u64::from(number))
}

// The truth: the number's bytes if it is at fault, or else the end behind it.
fn truth(file: &[u8]) -> (u64, [u64; 2]) {
    match file[PLACE..] {
        [..=10, ..] => (0, [PLACE as u64 + 1, 0]),
        [..=127, ..] => (0, [PLACE as u64, 1]),
        _ => (0, [PLACE as u64, 2]),
    }
}

/// Lies 1, 2 and 3 are bytes past the end; 4 is a place in the weights, 5 none, 6 one byte too many; 7
/// is a refusal that two words never give, and 8 no answer at all. Of a file that ends with the number,
/// as it is tried, lie 9 refuses every number, 10 takes every number, and 11 has a place before it.
fn shown(lie: u8, file: &[u8]) -> (u64, [u64; 2]) {
    let end = file.len() as u64;
    let is_trial = file.len() == PLACE + 1;
    match lie {
        1 => (0, [end + 1, 0]),
        2 => (0, [end, 1]),
        3 => (0, [u64::MAX, 1]),
        4 => (IN_WEIGHTS, [0, 1]),
        5 => (0, [0, 0]),
        6 => (0, [PLACE as u64, 2]),
        7 => (REFUSED | 8, [0, 0]),
        8 => (UNKNOWN, [0, 0]),
        9 if is_trial => (0, [PLACE as u64, 1]),
        10 if is_trial => (0, [end, 0]),
        11 if is_trial => (0, [1, 1]),
        _ => truth(file),
    }
}

/// No place for other tasks.
///
/// # Safety
/// The task has to be readable and the room writable, for as many elements as their lengths say.
#[no_mangle]
pub unsafe extern "C" fn florumeja_display(
    task: *const u8,
    count: usize,
    _: *const u8,
    _: usize,
    room: *mut u64,
    length: usize,
) -> u64 {
    assert!(length >= 2);
    let file = std::slice::from_raw_parts(task, count);
    let (word, words) = match asked(file) {
        Some((lie, _)) => shown(lie, file),
        None => (0, [0, 0]),
    };
    room.copy_from_nonoverlapping(words.as_ptr(), words.len());
    word
}

/// An answer outside the table of answers.
#[no_mangle]
pub extern "C" fn florumeja_display_partial(
    _: *const u8,
    _: usize,
    _: *const u8,
    _: usize,
    _: *mut u64,
    _: usize,
) -> u64 {
    UNKNOWN
}

/// A place in weights, which a bay has not; the words stay as they came.
#[no_mangle]
pub extern "C" fn florumeja_display_bay(_: *const u8, _: usize, _: *mut u64, _: usize) -> u64 {
    IN_WEIGHTS
}

//! For tests/tool: the calls on the two kinds of files, whose way back leads elsewhere. Every old task has two
//! variables of twelve values; its start says which lie is told. A new file is the old one with a 0 in front.

use super::{write, REFUSED, UNKNOWN};

/// Which lie a task of either kind asks for: the first value of its start.
fn asked(task: &[u8]) -> Option<u8> {
    match task {
        [2, 12, 12, lie, ..] | [0, 2, 12, 12, lie, ..] => Some(*lie),
        _ => None,
    }
}

/// Puts a 0 in front; lie 3 is no answer at all.
///
/// # Safety
/// The task has to be readable and the room writable, for as many bytes as their lengths say.
#[no_mangle]
pub unsafe extern "C" fn florumeja_to_new(
    from: *const u8,
    count: usize,
    room: *mut u8,
    length: usize,
) -> u64 {
    let task = std::slice::from_raw_parts(from, count);
    match asked(task) {
        Some(3) | None => UNKNOWN,
        Some(_) => write(&[&[0], task].concat(), room, length),
    }
}

/// Takes the 0 away. As lie 1 the last byte is another one, and as lie 2 it refuses what to_new wrote.
///
/// # Safety
/// The task has to be readable and the room writable, for as many bytes as their lengths say.
#[no_mangle]
pub unsafe extern "C" fn florumeja_to_old(
    from: *const u8,
    count: usize,
    room: *mut u8,
    length: usize,
) -> u64 {
    let task = std::slice::from_raw_parts(from, count);
    let mut old = task[1..].to_vec();
    match asked(task) {
        Some(1) => {
            old.pop();
            old.push(9);
            write(&old, room, length)
        }
        Some(2) => REFUSED | 3,
        _ => write(&old, room, length),
    }
}

/// Puts a 0 in front of the weights.
///
/// # Safety
/// The weights have to be readable and the room writable, for as many bytes as their lengths say.
#[no_mangle]
pub unsafe extern "C" fn florumeja_weights_to_new(
    _: *const u8,
    _: usize,
    from: *const u8,
    count: usize,
    room: *mut u8,
    length: usize,
) -> u64 {
    let weights = std::slice::from_raw_parts(from, count);
    write(&[&[0], weights].concat(), room, length)
}

/// Weights that list nothing, whatever came; the truth where no lie is asked for.
///
/// # Safety
/// The files have to be readable and the room writable, for as many bytes as their lengths say.
#[no_mangle]
pub unsafe extern "C" fn florumeja_weights_to_old(
    task: *const u8,
    task_length: usize,
    from: *const u8,
    count: usize,
    room: *mut u8,
    length: usize,
) -> u64 {
    let weights = std::slice::from_raw_parts(from, count);
    match asked(std::slice::from_raw_parts(task, task_length)) {
        Some(0) => write(&weights[1..], room, length),
        _ => write(&[0], room, length),
    }
}

/// An answer outside the table of answers.
#[no_mangle]
pub extern "C" fn florumeja_check_new(_: *const u8, _: usize, _: *const u8, _: usize) -> u64 {
    UNKNOWN
}

/// The same.
#[no_mangle]
pub extern "C" fn florumeja_check_partial_new(
    _: *const u8,
    _: usize,
    _: *const u8,
    _: usize,
) -> u64 {
    UNKNOWN
}

/// The same.
#[no_mangle]
pub extern "C" fn florumeja_display_new(
    _: *const u8,
    _: usize,
    _: *const u8,
    _: usize,
    _: *mut u64,
    _: usize,
) -> u64 {
    UNKNOWN
}

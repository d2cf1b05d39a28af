//! For tests/tool: a library whose finder finds what its own checker rejects, and whose calls on pair
//! lists, on places and on the two kinds of files do not fit together. The tool must not say IMPOSSIBLE
//! over it, nor that a list is mended or a file converted, nor show bytes that are not at fault.

mod lying_kinds;
mod lying_pairs;
mod lying_places;

use lying_pairs::{lie, NO_LIE};
use std::thread::sleep;
use std::time::Duration;

const REFUSED: u64 = 3 << 32;
/// An answer outside the table of answers.
const UNKNOWN: u64 = 9 << 32;

/// A workspace of two variables with two values each, from 01 to 10.
const WORKSPACE: [u64; 16] = [2, 2, 2, 0, 1, 1, 0, 0, 0, 0, 0, 0, 0, 0, 0, 0];

/// Rejected at operator 5, whatever it is asked.
#[no_mangle]
pub extern "C" fn florumeja_check(_: *const u8, _: usize, _: *const u8, _: usize) -> u64 {
    2 << 32 | 5
}

/// The same with a goal that is its start.
const ALIKE: [u64; 16] = [2, 2, 2, 0, 1, 0, 1, 0, 0, 0, 0, 0, 0, 0, 0, 0];

/// A task that begins so, with a workspace that would be large, is opened slowly.
const SLOW: [u8; 6] = [5, 64, 64, 64, 64, 2];
const SLOWLY: Duration = Duration::from_millis(1500);

/// Opens every task of no bytes as one workspace, and all others as another; a task that asks for a
/// lie about its pairs is refused 7, and 6 where there is no lie; one that asks for a lie about a place
/// says itself by which number it is refused.
///
/// # Safety
/// The task has to be readable and the room writable, for as many elements as their lengths say.
#[no_mangle]
pub unsafe extern "C" fn florumeja_open(
    task: *const u8,
    task_length: usize,
    room: *mut u64,
    length: usize,
) -> u64 {
    if let Some(number) = lying_places::refusal(task, task_length) {
        return REFUSED | number;
    }
    if std::slice::from_raw_parts(task, task_length).starts_with(&SLOW) {
        sleep(SLOWLY);
    }
    match lie(task, task_length) {
        Some(NO_LIE) => return REFUSED | 6,
        Some(_) => return REFUSED | 7,
        None => {}
    }
    let words = match task_length {
        0 => WORKSPACE,
        _ => ALIKE,
    };
    assert!(length >= words.len());
    room.copy_from_nonoverlapping(words.as_ptr(), words.len());
    words.len() as u64
}

/// Finds feature 0, which is true at the start of the one workspace and not at its goal; and none
/// in the other.
///
/// # Safety
/// The words have to be readable and the room writable, for as many words as their lengths say.
#[no_mangle]
pub unsafe extern "C" fn florumeja_find(
    words: *const u64,
    count: usize,
    room: *mut u64,
    length: usize,
) -> u64 {
    assert!(length > 0);
    if std::slice::from_raw_parts(words, count) == ALIKE {
        return 1 << 32;
    }
    room.write(1);
    0
}

/// An empty weight file, whatever the words are.
///
/// # Safety
/// The room has to be writable, for as many bytes as its length says.
#[no_mangle]
pub unsafe extern "C" fn florumeja_weight_file(
    _: *const u64,
    _: usize,
    room: *mut u8,
    length: usize,
) -> u64 {
    write(b"\0", room, length)
}

/// The line of the verdict above.
///
/// # Safety
/// The room has to be writable, for as many bytes as its length says.
#[no_mangle]
pub unsafe extern "C" fn florumeja_check_line(
    _: *const u8,
    _: usize,
    _: *const u8,
    _: usize,
    room: *mut u8,
    length: usize,
) -> u64 {
    write(b"rejected operator 5\n", room, length)
}

unsafe fn write(bytes: &[u8], room: *mut u8, length: usize) -> u64 {
    assert!(length >= bytes.len());
    room.copy_from_nonoverlapping(bytes.as_ptr(), bytes.len());
    bytes.len() as u64
}

/// A task of no bytes; for three rows, an answer outside the table of answers, and four are refused.
///
/// # Safety
/// The bay has to be readable, for as many bytes as its length says.
#[no_mangle]
pub unsafe extern "C" fn florumeja_build(
    bay: *const u8,
    length: usize,
    _: *mut u8,
    _: usize,
) -> u64 {
    match std::slice::from_raw_parts(bay, length) {
        [3, ..] => UNKNOWN,
        [4, ..] => REFUSED | 2,
        _ => 0,
    }
}

/// The marks in the place of a partial file; refused 2 where the first variable is silent.
///
/// # Safety
/// The marks have to be readable and the room writable, for as many bytes as their lengths say.
#[no_mangle]
pub unsafe extern "C" fn florumeja_silence(
    _: *const u8,
    _: usize,
    marks: *const u8,
    count: usize,
    room: *mut u8,
    length: usize,
) -> u64 {
    let marks = std::slice::from_raw_parts(marks, count);
    match marks.first() {
        Some(0) => REFUSED | 2,
        _ => write(marks, room, length),
    }
}

/// Refused 7 where the second variable is silent; a task of no bytes where the third is, of one
/// byte otherwise.
///
/// # Safety
/// The file has to be readable and the room writable, for as many bytes as their lengths say.
#[no_mangle]
pub unsafe extern "C" fn florumeja_build_partial_lean(
    partial: *const u8,
    count: usize,
    room: *mut u8,
    length: usize,
) -> u64 {
    match std::slice::from_raw_parts(partial, count) {
        [_, 0, ..] => REFUSED | 7,
        [_, _, 0, ..] => 0,
        _ => write(b"\0", room, length),
    }
}

/// An answer outside the table of answers.
#[no_mangle]
pub extern "C" fn florumeja_build_partial(_: *const u8, _: usize, _: *mut u8, _: usize) -> u64 {
    UNKNOWN
}

/// The same.
#[no_mangle]
pub extern "C" fn florumeja_open_partial(_: *const u8, _: usize, _: *mut u64, _: usize) -> u64 {
    UNKNOWN
}

/// The same.
#[no_mangle]
pub extern "C" fn florumeja_check_partial(_: *const u8, _: usize, _: *const u8, _: usize) -> u64 {
    UNKNOWN
}

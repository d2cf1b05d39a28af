//! For tests/tool: the calls on pair lists, which do not fit together. Every task has two variables of
//! ten values, the start 00, the pairs 20 and 31, which are 00 and 11, and an operator that takes
//! variable 0 from 0 to 1; its goal says which lie is told.

use super::{write, REFUSED, UNKNOWN};

/// Such a task is mended truly: the start holds pair 20, and 31 stays.
pub const NO_LIE: u8 = 0;

/// Which lie a task asks for: the first value of its goal.
pub unsafe fn lie(task: *const u8, count: usize) -> Option<u8> {
    match std::slice::from_raw_parts(task, count) {
        [2, 10, 10, _, _, lie, ..] => Some(*lie),
        _ => None,
    }
}

fn task(lie: u8, pairs: &[u8]) -> Vec<u8> {
    let front = [2, 10, 10, 0, 0, lie, 1, pairs.len() as u8];
    [&front, pairs, &[1, 1, 0, 0, 1]].concat()
}

/// Drops pair 20. As lie 1 it drops none, and as lie 2 both; lie 7 is a refusal that it never gives,
/// and lie 9 no answer at all.
///
/// # Safety
/// The task has to be readable and the room writable, for as many bytes as their lengths say.
#[no_mangle]
pub unsafe extern "C" fn florumeja_mend(
    from: *const u8,
    count: usize,
    room: *mut u8,
    length: usize,
) -> u64 {
    match lie(from, count) {
        Some(1) => write(&task(1, &[20, 31]), room, length),
        Some(2) => write(&task(2, &[]), room, length),
        Some(7) => REFUSED | 7,
        Some(9) | None => UNKNOWN,
        Some(lie) => write(&task(lie, &[31]), room, length),
    }
}

/// Pair 20, but none beside lie 1. As lie 3 it adds one that is not listed, and as lie 8 it refuses
/// what mend took.
///
/// # Safety
/// The task has to be readable and the room writable, for as many bytes as their lengths say.
#[no_mangle]
pub unsafe extern "C" fn florumeja_dropped(
    from: *const u8,
    count: usize,
    room: *mut u8,
    length: usize,
) -> u64 {
    match lie(from, count) {
        Some(1) => write(&[0], room, length),
        Some(3) => write(&[2, 20, 21], room, length),
        Some(8) => REFUSED | 1,
        _ => write(&[1, 20], room, length),
    }
}

/// The start holds 20, if it is listed. Of both pairs: as lie 4 the operator breaks 31, which stays;
/// lie 5 finds no fault, and lie 6 an operator that is not there.
///
/// # Safety
/// The task has to be readable and the room writable, for as many elements as their lengths say.
#[no_mangle]
pub unsafe extern "C" fn florumeja_pair_fault(
    from: *const u8,
    count: usize,
    room: *mut u64,
    length: usize,
) -> u64 {
    assert!(length >= 2);
    let file = std::slice::from_raw_parts(from, count);
    let (case, words) = match (file.get(8..), lie(from, count)) {
        (Some([20, 31, ..]), Some(4)) => (2, [31, 0]),
        (Some([20, 31, ..]), Some(5)) => (0, [0, 0]),
        (Some([20, 31, ..]), Some(6)) => (2, [20, 5]),
        (Some([20, ..]), _) => (1, [20, 0]),
        _ => (0, [0, 0]),
    };
    room.copy_from_nonoverlapping(words.as_ptr(), words.len());
    case << 32
}

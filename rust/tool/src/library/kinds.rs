//! The calls that write a file in the other kind.

use super::face::*;
use super::written;
use crate::fault::Fault;
use crate::notation::Notation;

/// What a new file may have more than the old one: the 0 that it begins with.
const NEW_MORE: usize = 1;
/// What an old file may have more: two bytes for each of 16,384 features from 16,384 on and one for each
/// of 16,256 from 128 on, where a gap has one byte at least, and not that 0.
const OLD_MORE: usize = 2 * 16_384 + 16_256 - 1;

/// The task file in this kind; it has to be of the other one.
pub fn converted(to: Notation, task: &[u8]) -> Result<Vec<u8>, Fault> {
    let (name, call): (_, unsafe extern "C" fn(_, _, _, _) -> _) = match to {
        Notation::New => ("to_new", florumeja_to_new),
        Notation::Old => ("to_old", florumeja_to_old),
    };
    written(name, task.len() + more(to), |room: &mut [u8]| {
        // SAFETY: both slices live through the call, and only the room is written.
        unsafe { call(task.as_ptr(), task.len(), room.as_mut_ptr(), room.len()) }
    })
}

/// The weight file in this kind, beside its task of either kind; it has to be of the other one.
pub fn converted_weights(to: Notation, task: &[u8], weights: &[u8]) -> Result<Vec<u8>, Fault> {
    let (name, call): (_, unsafe extern "C" fn(_, _, _, _, _, _) -> _) = match to {
        Notation::New => ("weights_to_new", florumeja_weights_to_new),
        Notation::Old => ("weights_to_old", florumeja_weights_to_old),
    };
    written(name, weights.len() + more(to), |room: &mut [u8]| {
        // SAFETY: all slices live through the call, and only the room is written.
        unsafe {
            call(
                task.as_ptr(),
                task.len(),
                weights.as_ptr(),
                weights.len(),
                room.as_mut_ptr(),
                room.len(),
            )
        }
    })
}

fn more(to: Notation) -> usize {
    match to {
        Notation::New => NEW_MORE,
        Notation::Old => OLD_MORE,
    }
}

//! The calls that show where a file is at fault.

use super::face::*;
use super::{answer, unknown, Answer};
use crate::fault::Fault;

/// A weight file that lists nothing, and so is never at fault itself.
pub const NO_WEIGHTS: &[u8] = &[0];

/// Which of the files holds a part; what comes without weights stands in the task's place.
#[derive(Clone, Copy, PartialEq, Eq, Debug)]
pub enum Holder {
    Task,
    Weights,
}

/// Some bytes of a file, by the first of them, from 0, and by their count.
#[derive(Clone, Copy, PartialEq, Eq, Debug)]
pub struct Part {
    pub holder: Holder,
    pub beginning: usize,
    pub length: usize,
}

impl Part {
    /// What is shown where nothing is at fault, or where the fault has no place.
    pub const NONE: Part = Part {
        holder: Holder::Task,
        beginning: 0,
        length: 0,
    };

    fn lies_in(&self, file: &[u8]) -> bool {
        let end = self.beginning.checked_add(self.length);
        end.is_some_and(|end| end <= file.len())
    }
}

/// A call that shows what is at fault in a file or in the weights beside it.
type Display = unsafe extern "C" fn(*const u8, usize, *const u8, usize, *mut u64, usize) -> u64;

fn displayed(name: &str, call: Display, file: &[u8], weights: &[u8]) -> Result<Part, Fault> {
    let mut room = [0u64; 2];
    // SAFETY: all slices live through the call, and only the room is written.
    let word = unsafe {
        call(
            file.as_ptr(),
            file.len(),
            weights.as_ptr(),
            weights.len(),
            room.as_mut_ptr(),
            room.len(),
        )
    };
    shown(name, word, room, file, weights)
}

/// The bytes at fault in a task file, or else in the weights beside it.
pub fn display(task: &[u8], weights: &[u8]) -> Result<Part, Fault> {
    displayed("display", florumeja_display, task, weights)
}

/// The same, and the weights are a new weight file.
pub fn display_new(task: &[u8], weights: &[u8]) -> Result<Part, Fault> {
    displayed("display_new", florumeja_display_new, task, weights)
}

/// The bytes at fault in a partial file, or else in weights for its built task.
pub fn display_partial(partial: &[u8], weights: &[u8]) -> Result<Part, Fault> {
    displayed(
        "display_partial",
        florumeja_display_partial,
        partial,
        weights,
    )
}

/// The same in a bay file, which has no weights beside it.
pub fn display_bay(bay: &[u8]) -> Result<Part, Fault> {
    let mut room = [0u64; 2];
    // SAFETY: both slices live through the call, and only the room is written.
    let word =
        unsafe { florumeja_display_bay(bay.as_ptr(), bay.len(), room.as_mut_ptr(), room.len()) };
    let part = shown("display_bay", word, room, bay, &[])?;
    match part.holder {
        Holder::Task => Ok(part),
        Holder::Weights => Err(unknown("display_bay", word)),
    }
}

// Two words are always room enough, so there is no refusal to pass on.
fn shown(
    call: &str,
    word: u64,
    room: [u64; 2],
    task: &[u8],
    weights: &[u8],
) -> Result<Part, Fault> {
    let (holder, file) = match answer(call, word)? {
        Answer::Yes(_) => (Holder::Task, task),
        Answer::No => (Holder::Weights, weights),
        _ => return Err(unknown(call, word)),
    };
    let [beginning, length] = room.map(|word| word as usize);
    let part = Part {
        holder,
        beginning,
        length,
    };
    // Bytes that are not there must never be shown.
    match part.lies_in(file) {
        true => Ok(part),
        false => Err(Fault::Failure(format!(
            "the library's {call} shows bytes that the file does not have, so nothing is said"
        ))),
    }
}

#[cfg(test)]
mod tests {
    use super::*;

    fn in_task(word: u64, room: [u64; 2]) -> Result<Part, Fault> {
        shown("display", word, room, &[2, 2, 0], NO_WEIGHTS)
    }

    #[test]
    fn a_part_lies_in_the_file_that_holds_it() {
        let part = in_task(0, [2, 1]).unwrap();
        assert_eq!(
            (part.holder, part.beginning, part.length),
            (Holder::Task, 2, 1)
        );
        assert_eq!(in_task(0, [3, 0]).unwrap().beginning, 3);
        assert_eq!(in_task(0, [0, 0]).unwrap(), Part::NONE);
        let part = in_task(1 << 32, [0, 1]).unwrap();
        assert_eq!(
            (part.holder, part.beginning, part.length),
            (Holder::Weights, 0, 1)
        );
    }

    #[test]
    fn bytes_that_are_not_there_are_not_shown() {
        let beyond = [[4, 0], [3, 1], [2, 2], [0, 4], [1, u64::MAX], [u64::MAX, 1]];
        for room in beyond {
            let fault = in_task(0, room).unwrap_err();
            assert_eq!(fault.heading(), "ERROR", "{room:?}");
            assert!(fault.words().contains("does not have"), "{room:?}");
        }
        assert!(in_task(1 << 32, [1, 1]).is_err());
    }

    #[test]
    fn only_the_two_files_are_an_answer() {
        for word in [2 << 32, 3 << 32 | 8, 9 << 32] {
            let fault = in_task(word, [0, 0]).unwrap_err();
            assert_eq!(fault.heading(), "ERROR", "{word:#x}");
        }
    }
}

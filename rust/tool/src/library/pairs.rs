//! The calls on pair lists made by hand: the mended file, what it drops, and which pair is at fault.

use super::face::*;
use super::{answer, written, Answer, WEIGHT_BYTES};
use crate::fault::Fault;
use crate::numbers;

/// Why a listed pair cannot stay.
#[derive(Clone, Copy, PartialEq, Eq, Debug)]
pub enum Reason {
    /// The start holds it.
    Start,
    /// It is unclosed under this operator, counted from 0.
    Operator(usize),
}

/// The task file with the largest good part of its pair list; it is never longer than the task.
pub fn mend(task: &[u8]) -> Result<Vec<u8>, Fault> {
    let file = written("mend", task.len(), |room: &mut [u8]| {
        // SAFETY: both slices live through the call, and only the room is written.
        unsafe { florumeja_mend(task.as_ptr(), task.len(), room.as_mut_ptr(), room.len()) }
    });
    file.map_err(|fault| unjudged("mend", fault))
}

/// The pairs that the mended file has no more, increasing, as an old weight file has them, which can be
/// longer than a new task file.
pub fn dropped(task: &[u8]) -> Result<Vec<usize>, Fault> {
    let list = written("dropped", WEIGHT_BYTES, |room: &mut [u8]| {
        // SAFETY: both slices live through the call, and only the room is written.
        unsafe { florumeja_dropped(task.as_ptr(), task.len(), room.as_mut_ptr(), room.len()) }
    });
    let list = list.map_err(|fault| unjudged("dropped", fault))?;
    increasing(&list).ok_or_else(|| Fault::Failure("the library's dropped wrote no list".into()))
}

fn increasing(mut list: &[u8]) -> Option<Vec<usize>> {
    let numbers = numbers::take_list(&mut list)?;
    let increasing = numbers.windows(2).all(|two| two[0] < two[1]);
    (increasing && list.is_empty()).then_some(numbers)
}

/// A listed pair that cannot stay, by its number; none if the list is good.
pub fn pair_fault(task: &[u8]) -> Result<Option<(usize, Reason)>, Fault> {
    let mut room = [0u64; 2];
    // SAFETY: both slices live through the call, and only the room is written.
    let word =
        unsafe { florumeja_pair_fault(task.as_ptr(), task.len(), room.as_mut_ptr(), room.len()) };
    let [pair, operator] = room.map(|word| word as usize);
    match answer("pair_fault", word)? {
        Answer::Yes(_) => Ok(None),
        Answer::No => Ok(Some((pair, Reason::Start))),
        Answer::Operator(_) => Ok(Some((pair, Reason::Operator(operator)))),
        Answer::Refused(number) => Err(unjudged("pair_fault", Fault::Refused(number))),
    }
}

// These calls take every pair list, so a refusal of one must never be passed on.
fn unjudged(call: &str, fault: Fault) -> Fault {
    match fault {
        Fault::Refused(number @ (6 | 7)) => Fault::Failure(format!(
            "the library's {call} refused a pair list by {number}, which it never does"
        )),
        other => other,
    }
}

#[cfg(test)]
mod tests {
    use super::*;

    #[test]
    fn a_list_increases_and_nothing_follows() {
        assert_eq!(increasing(&[0]).unwrap(), []);
        assert_eq!(increasing(&[2, 5, 0x80, 1]).unwrap(), [5, 128]);
        for list in [&[][..], &[1], &[2, 7, 5], &[2, 5, 5], &[1, 5, 5]] {
            assert_eq!(increasing(list), None);
        }
    }
}

//! The library's calls in rooms that are never too small: the file that one writes, the workspace that is opened, the weights that are found.

use crate::{answer, library};

/// Words of the largest workspace and of the largest answer.
const WORKSPACE_WORDS: usize = 16_777_921;
const ANSWER_WORDS: usize = 512;

/// More than any file takes here.
const FILE_BYTES: usize = 1 << 18;

/// The file that a call writes, unless it is refused.
pub fn written(call: impl Fn(&mut [u8]) -> u64) -> Option<Vec<u8>> {
    due(FILE_BYTES, call)
}

/// The workspace of a task file, unless it is refused.
pub fn opened(task: &[u8]) -> Option<Vec<u64>> {
    due(WORKSPACE_WORDS, |room| library::open(task, room))
}

/// The weight file of what is found, where weights separate.
pub fn weights_of(workspace: &[u64]) -> Option<Vec<u8>> {
    let mut words = vec![0; ANSWER_WORDS];
    if library::find(workspace, &mut words) != 0 {
        return None;
    }
    written(|room| library::weight_file(&words, room))
}

/// What a call leaves at the front of a room, as much as it answers.
fn due<T: Clone + Default>(length: usize, call: impl Fn(&mut [T]) -> u64) -> Option<Vec<T>> {
    let mut room = vec![T::default(); length];
    let due = answer::value(call(&mut room))?;
    room.truncate(due);
    Some(room)
}

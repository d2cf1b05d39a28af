//! Where files are at fault, and the bytes that are shown of it.

use crate::bay::{bay_from, Bay};
use crate::feature_set::FeatureSet;
use crate::features::count_features;
use crate::kinds::Kind;
use crate::numbers::Reader;
use crate::partial::{built_from, LeftOut};
use crate::refusal::Refusal;
use crate::task::{task_from, task_of_kind, Task};
use crate::weights::weights_from;
use std::ops::Range;

/// The files that may be at fault; a partial file, or a bay, stands in the task's place.
#[derive(Clone, Copy, Debug, PartialEq, Eq)]
pub enum File {
    Task,
    Weights,
}

/// Some bytes of one of the files.
#[derive(Clone, Debug, PartialEq, Eq)]
pub struct Part {
    pub file: File,
    pub bytes: Range<usize>,
}

/// Why files are refused, and what was read of the number at fault; its beginning is the place.
#[derive(Clone, Debug, PartialEq, Eq)]
pub struct Fault {
    pub refusal: Refusal,
    pub part: Option<Part>,
}

impl From<Refusal> for Fault {
    fn from(refusal: Refusal) -> Self {
        Fault {
            refusal,
            part: None,
        }
    }
}

impl From<Fault> for Refusal {
    fn from(fault: Fault) -> Self {
        fault.refusal
    }
}

/// The part to show; without a place it is empty at the task's start.
pub fn shown<Read>(read: Result<Read, Fault>) -> Part {
    let part = read.err().and_then(|fault| fault.part);
    part.unwrap_or(Part {
        file: File::Task,
        bytes: 0..0,
    })
}

/// Reads a file; where it is refused at a number, that number is the part.
pub fn read<Read>(
    file: File,
    mut reader: Reader,
    reading: impl FnOnce(&mut Reader) -> Result<Read, Refusal>,
) -> Result<Read, Fault> {
    reading(&mut reader).map_err(|refusal| Fault {
        refusal,
        part: reader.being_read().map(|bytes| Part { file, bytes }),
    })
}

pub fn read_task_file(bytes: &[u8]) -> Result<Task, Fault> {
    read(File::Task, Reader::new(bytes), task_from)
}

/// Reads a task file of the kind that is due.
pub fn read_task_file_of(due: Kind, bytes: &[u8]) -> Result<Task, Fault> {
    read(File::Task, Reader::new(bytes), |reader| {
        task_of_kind(due, reader)
    })
}

/// The task that is built of a partial file.
pub fn read_partial_file(bytes: &[u8], left_out: LeftOut) -> Result<Task, Fault> {
    read(File::Task, Reader::new(bytes), |reader| {
        built_from(reader, left_out)
    })
}

pub fn read_bay_file(bytes: &[u8]) -> Result<Bay, Fault> {
    read(File::Task, Reader::new(bytes), bay_from)
}

/// Reads a weight file of the kind that is due for a task of so many features.
pub fn read_weight_file(due: Kind, bytes: &[u8], count: usize) -> Result<FeatureSet, Fault> {
    read(File::Weights, Reader::new(bytes), |reader| {
        weights_from(due, reader, count)
    })
}

/// Reads weights for a task that was wholly judged before.
fn beside(due: Kind, task: Task, weights: &[u8]) -> Result<(Task, FeatureSet), Fault> {
    let weights = read_weight_file(due, weights, count_features(&task.sizes))?;
    Ok((task, weights))
}

/// A task of either kind, and weights of the kind that is due.
pub fn read_both(due: Kind, task: &[u8], weights: &[u8]) -> Result<(Task, FeatureSet), Fault> {
    beside(due, read_task_file(task)?, weights)
}

/// The task that is built by the letter, and weights for it.
pub fn read_both_partial(
    due: Kind,
    partial: &[u8],
    weights: &[u8],
) -> Result<(Task, FeatureSet), Fault> {
    beside(due, read_partial_file(partial, LeftOut::ByLetter)?, weights)
}

//! Files read by limits that haven't moved, or that have moved too far.

use super::faults::{planted_fault, Fault};
use super::kinds::{kind_beside, task_from, weights_from};
use reference::feature_set::FeatureSet;
use reference::features::count_features;
use reference::kinds::Kind;
use reference::limits::{Limits, BEFORE, NOW};
use reference::numbers::Reader;
use reference::places::{self, File};
use reference::task::Task;

/// What is read, and by which calls.
#[derive(Clone, Copy, Debug, PartialEq, Eq)]
pub enum Files {
    /// Task files to check and to open.
    Tasks,
    /// Weight files to check.
    Weights,
    Bays,
    Partials,
    /// Task files to silence.
    Silenced,
    /// Task files to mend.
    Mended,
    /// Task and weight files whose lines are printed.
    Printed,
    /// Task and weight files of which a part is shown.
    Shown,
    ShownPartials,
    ShownBays,
    /// Task files to convert, and those beside weights to convert.
    Converted,
    /// Weight files to convert.
    ConvertedWeights,
}

/// A limit that isn't the rules'.
#[derive(Clone, Copy, Debug, PartialEq, Eq)]
pub enum Bound {
    TwoGroups,
    FourGroups,
    FeaturesAsBefore,
    OneFeatureLess,
    OneFeatureMore,
    SlotsAsBefore,
    FifteenSlots,
    EighteenSlots,
}

use Bound::*;

impl Bound {
    fn limits(self) -> Limits {
        let mut limits = NOW;
        match self {
            TwoGroups => limits.groups = 2,
            FourGroups => limits.groups = 4,
            FeaturesAsBefore => limits.features = BEFORE.features,
            OneFeatureLess => limits.features -= 1,
            OneFeatureMore => limits.features += 1,
            SlotsAsBefore => limits.slots = BEFORE.slots,
            FifteenSlots => limits.slots = 15,
            EighteenSlots => limits.slots = 18,
        }
        limits
    }
}

/// Reads some files by the planted limit.
pub fn reader(files: Files, bytes: &[u8]) -> Reader<'_> {
    match planted_fault() {
        Fault::By(planted, bound) if planted == files => Reader::within(bound.limits(), bytes),
        _ => Reader::new(bytes),
    }
}

/// A task and weights for it of the kind that is due, each read by the limit that is planted for it.
pub fn read_both(
    due: Kind,
    [(of_task, task), (of_weights, weights)]: [(Files, &[u8]); 2],
) -> Result<(Task, FeatureSet), places::Fault> {
    let due = kind_beside(due, task);
    let task = places::read(File::Task, reader(of_task, task), |reader| {
        task_from(of_task, reader)
    })?;
    let count = count_features(&task.sizes);
    let weights = places::read(File::Weights, reader(of_weights, weights), |reader| {
        weights_from(due, reader, count)
    })?;
    Ok((task, weights))
}

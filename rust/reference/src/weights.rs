//! Weight files. Callers say of which kind the one is that they send.

use crate::feature_set::FeatureSet;
use crate::kinds::Kind;
use crate::numbers::{encode, Reader};
use crate::refusal::Refusal;

/// Reads a weight file of the kind that is due for a task of so many features.
pub fn read_weights(due: Kind, bytes: &[u8], count: usize) -> Result<FeatureSet, Refusal> {
    weights_from(due, &mut Reader::new(bytes), count)
}

/// The same by the reader's limits.
pub fn weights_from(due: Kind, reader: &mut Reader, count: usize) -> Result<FeatureSet, Refusal> {
    reader.front(due)?;
    let listed = reader.list(due, &(0..count))?;
    reader.finish()?;
    Ok(FeatureSet::of(count, &listed))
}

/// The numbers of a weight file, in order; where nothing is said of its kind, it is the old.
pub fn weight_numbers(weights: &FeatureSet) -> Vec<usize> {
    weight_numbers_of(Kind::Old, weights)
}

pub fn weight_file(weights: &FeatureSet) -> Vec<u8> {
    weight_file_of(Kind::Old, weights)
}

/// The numbers of a weight file of some kind, in order.
pub fn weight_numbers_of(kind: Kind, weights: &FeatureSet) -> Vec<usize> {
    [kind.front(), kind.list(&weights.members())].concat()
}

pub fn weight_file_of(kind: Kind, weights: &FeatureSet) -> Vec<u8> {
    encode(&weight_numbers_of(kind, weights))
}

//! A file of both kinds, as the library converts it.

use crate::{library, rooms};
use std::fmt;

/// The same task, weights or pairs as an old file and as a new one.
pub struct Kinds {
    pub old: Vec<u8>,
    pub new: Vec<u8>,
}

impl Kinds {
    pub fn of_task(old: &[u8]) -> Result<Kinds, String> {
        Kinds::converted(old, library::to_new, library::to_old)
    }

    /// Weights beside their task.
    pub fn of_weights(task: &[u8], old: &[u8]) -> Result<Kinds, String> {
        Kinds::converted(
            old,
            |old, room| library::weights_to_new(task, old, room),
            |new, room| library::weights_to_old(task, new, room),
        )
    }

    /// A pair list alone, beside a task with the same features: it is written as weights are, but a new one without their 0.
    pub fn of_pairs(task: &[u8], old: &[u8]) -> Result<Kinds, String> {
        let mut list = Kinds::of_weights(task, old)?;
        list.new.remove(0);
        Ok(list)
    }

    /// Converts an old file, and the new one back to the same bytes.
    fn converted(
        old: &[u8],
        to_new: impl Fn(&[u8], &mut [u8]) -> u64,
        to_old: impl Fn(&[u8], &mut [u8]) -> u64,
    ) -> Result<Kinds, String> {
        let new = rooms::written(|room| to_new(old, room)).ok_or("the old file is refused")?;
        let back = rooms::written(|room| to_old(&new, room)).ok_or("the new file is refused")?;
        if back != old {
            return Err("converting back gives another file".to_string());
        }
        Ok(Kinds { old: back, new })
    }

    fn percent(&self) -> f64 {
        100.0 * self.new.len() as f64 / self.old.len() as f64
    }
}

/// Three cells of a table: the bytes of both, and the new ones in percent of the old ones.
impl fmt::Display for Kinds {
    fn fmt(&self, formatter: &mut fmt::Formatter) -> fmt::Result {
        let (old, new) = (self.old.len(), self.new.len());
        write!(formatter, "{old} | {new} | {:.1} %", self.percent())
    }
}

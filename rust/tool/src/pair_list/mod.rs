//! The pair list of a task file: which pair cannot stay, and why; and the list mended.

mod cause;
mod mending;
mod naming;
mod task_file;
#[cfg(test)]
mod tests;

use crate::fault::Fault;
use crate::features::Atom;
use crate::json::Json;
use crate::library;
pub use cause::Cause;
pub use mending::{mend, Dropped, Mended, MOST_STEPS};
pub use naming::{Naming, Shape};
use task_file::TaskFile;

/// A listed pair: a feature of two variables, by its number and in atoms.
#[derive(Clone, Copy, PartialEq, Eq, Debug)]
pub struct Pair {
    pub number: usize,
    pub one: Atom,
    pub two: Atom,
}

impl Pair {
    pub fn words(&self, naming: &Naming) -> String {
        let (one, two) = (naming.atom(self.one), naming.atom(self.two));
        format!("pair {}, {one} and {two}", self.number)
    }

    /// The members of a pair, for a program.
    pub fn fields(&self, naming: &Naming) -> Vec<(&'static str, Json)> {
        let atoms = vec![naming.json(self.one), naming.json(self.two)];
        vec![
            ("number", Json::number(self.number)),
            ("atoms", Json::List(atoms)),
        ]
    }
}

/// A pair that cannot stay, and why; it is behind a refusal 6 or 7.
#[derive(Debug)]
pub struct Culprit {
    pair: Pair,
    cause: Cause,
}

impl Culprit {
    pub fn refusal(&self) -> u32 {
        self.cause.refusal()
    }

    pub fn words(&self) -> String {
        let naming = Naming::Variables;
        let (pair, cause) = (self.pair.words(&naming), self.cause.words(&naming));
        format!("{pair}: {cause}; all counted from 0")
    }

    pub fn json(&self) -> Json {
        let mut fields = self.pair.fields(&Naming::Variables);
        fields.extend(self.cause.fields(&Naming::Variables));
        Json::Object(fields)
    }
}

/// Says of a task that was refused 6 or 7 which pair is behind it.
pub fn told(fault: Fault, task: &[u8]) -> Fault {
    match fault {
        Fault::Refused(number @ (6 | 7)) => match culprit(number, task) {
            Some(culprit) => Fault::Pair(culprit),
            None => Fault::Failure(format!(
                "the library refused the task by {number}, but its pair_fault does not bear that \
                 out, so nothing is said"
            )),
        },
        other => other,
    }
}

// None where the pair at fault is not one of this file, or not for this refusal.
fn culprit(number: u32, task: &[u8]) -> Option<Culprit> {
    let (pair, reason) = library::pair_fault(task).ok()??;
    let culprit = TaskFile::read(task)?.culprit(pair, reason)?;
    (culprit.refusal() == number).then_some(culprit)
}

//! The kinds of binary files, and how the library shows a fault in each.

use crate::fault::Fault;
use crate::library::{
    converted, display, display_bay, display_new, display_partial, Holder, Part, NO_WEIGHTS,
};
use crate::notation::Notation;
use crate::numbers;

/// What a file is read as, with the file that has to come before it.
#[derive(Clone, Copy, Debug)]
pub enum Kind<'a> {
    /// A task file, old or new by its first number.
    Task,
    /// A task file where only an old one will do, or only a new one.
    TaskIn(Notation),
    Partial,
    Bay,
    /// Weights for this task, as an old weight file or as a new one.
    Weights(Notation, &'a [u8]),
    /// Weights for the built task of this partial file, by the letter, as an old weight file.
    PartialWeights(&'a [u8]),
}

impl Kind<'_> {
    /// The bytes at fault in a file of this kind; none where nothing is, or the fault has no place.
    pub fn part(self, file: &[u8]) -> Result<Option<Part>, Fault> {
        let part = match self {
            Kind::Task => display(file, NO_WEIGHTS),
            Kind::TaskIn(due) => match first_number(due, file) {
                Some(part) => return Ok(Some(part)),
                None => display(file, NO_WEIGHTS),
            },
            Kind::Partial => display_partial(file, NO_WEIGHTS),
            Kind::Bay => display_bay(file),
            Kind::Weights(Notation::Old, task) => display(task, file),
            Kind::Weights(Notation::New, task) => display_new(task, file),
            Kind::PartialWeights(partial) => display_partial(partial, file),
        }?;
        // A file in the task's place that has no bytes is at fault just there.
        let begins = self.holder() == Holder::Task && file.is_empty();
        match part {
            Part::NONE if !begins => Ok(None),
            part if part.holder == self.holder() => Ok(Some(part)),
            _ => Err(Fault::Failure(
                "the library shows a fault in a file that it had taken, so nothing is said".into(),
            )),
        }
    }

    fn holder(self) -> Holder {
        match self {
            Kind::Task | Kind::TaskIn(_) | Kind::Partial | Kind::Bay => Holder::Task,
            Kind::Weights(..) | Kind::PartialWeights(_) => Holder::Weights,
        }
    }
}

// The library displays a task of either kind, so the call that takes only one is asked about the other.
fn first_number(due: Notation, file: &[u8]) -> Option<Part> {
    let number = match due {
        Notation::Old => 2,
        Notation::New => 3,
    };
    if Notation::of_task(file) != Some(due.other()) {
        return None;
    }
    let refused = converted(due.other(), file);
    matches!(refused, Err(Fault::Refused(refused)) if refused == number).then(|| Part {
        length: numbers::read(file).1,
        ..Part::NONE
    })
}

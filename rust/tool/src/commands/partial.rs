//! Partial files in the place of task files: the options, and what each command reads then.

use super::refused;
use crate::args::{Arguments, Choice};
use crate::fault::Fault;
use crate::library::{self, Verdict, Workspace, NO_WEIGHTS};
use crate::notation::Notation;
use crate::place::{self, Kind};
use crate::progress::{Steps, Telling};
use crate::sizes;

pub const PARTIAL: Choice = Choice {
    long: "--partial",
    short: None,
    value: None,
    help: "read a partial file: an order that names some variables",
};

pub const LEAN: Choice = Choice {
    long: "--lean",
    short: None,
    value: None,
    help: "with --partial: take the lean built task",
};

/// For the help of each command that takes the two options.
pub const ABOUT: &str = "\
With --partial the file is a partial file, and its built task is what is read: a
task with one value more for each variable, \"unknown\", which a silent variable
has at the goal. By the letter of the rules every named variable can be forgotten
too, so start and goal mostly both lead to \"all unknown\" and seldom have a proof.
With --lean the built task has no operators that forget a named variable; it
loses no plan either, so a proof means the same.";

/// What a limit that is judged behind a partial file's last byte has found.
const OUTGROWN: &str =
    "with those that forget, the built task has more operators than a file can count";

/// What a file stands for on this command line.
#[derive(Clone, Copy)]
pub enum Reading {
    Task,
    Letter,
    Lean,
}

impl Reading {
    pub fn of(arguments: &Arguments) -> Reading {
        match (arguments.has(&PARTIAL), arguments.has(&LEAN)) {
            (false, _) => Reading::Task,
            (true, false) => Reading::Letter,
            (true, true) => Reading::Lean,
        }
    }

    /// The steps of opening a file, and so many more.
    pub fn steps<'a>(self, telling: &'a Telling, file: &[u8], more: usize) -> Steps<'a> {
        let (sizes, own) = match self {
            Reading::Task => (sizes::of_task(file), 1),
            Reading::Letter => (sizes::of_built(file), 1),
            Reading::Lean => (sizes::of_built(file), 2),
        };
        let words = library::words_due(&sizes.unwrap_or_default());
        telling.steps(words, own + more)
    }

    pub fn open(self, file: &[u8], steps: &mut Steps) -> Result<Workspace, Fault> {
        let workspace = match self {
            Reading::Task => steps.open(|| library::open(file)),
            Reading::Letter => steps.open(|| library::open_partial(file)),
            Reading::Lean => {
                let task = steps.take("building the task", || self.task(file))?;
                steps.open(|| library::open(&task))
            }
        };
        workspace.map_err(|fault| self.told(fault, file))
    }

    /// The verdict on weights of this kind, and the line that says it.
    pub fn check(
        self,
        file: &[u8],
        notation: Notation,
        weights: &[u8],
    ) -> Result<(Verdict, String), Fault> {
        let task = self.task(file)?;
        let verdict = match (self, notation) {
            (Reading::Letter, Notation::Old) => library::check_partial(file, weights),
            (Reading::Letter, Notation::New) => library::check_partial_new(file, weights),
            (_, Notation::Old) => library::check(&task, weights),
            (_, Notation::New) => library::check_new(&task, weights),
        }?;
        // The line is made of old weights only.
        let line = match notation {
            Notation::Old => library::check_line(&task, weights),
            Notation::New => library::converted_weights(Notation::Old, &task, weights)
                .and_then(|weights| library::check_line(&task, &weights)),
        }?;
        Ok((verdict, line))
    }

    /// The task file that the file is, or that is built of it.
    pub fn task(self, file: &[u8]) -> Result<Vec<u8>, Fault> {
        let task = match self {
            Reading::Task => Ok(file.to_vec()),
            Reading::Letter => library::build_partial(file),
            Reading::Lean => library::build_partial_lean(file),
        };
        task.map_err(|fault| self.told(fault, file))
    }

    /// Refuses the file as a check does before it reads the weights.
    pub fn judge(self, file: &[u8]) -> Result<(), Fault> {
        let verdict = library::check(&self.task(file)?, NO_WEIGHTS);
        verdict.map(|_| ()).map_err(|fault| self.told(fault, file))
    }

    /// Says of a file that was refused where it is at fault, and what may help.
    pub fn told(self, fault: Fault, file: &[u8]) -> Fault {
        match self {
            Reading::Task => refused::task(fault, Kind::Task, file),
            _ => match place::told(fault, Kind::Partial, file).about(file) {
                fault @ Fault::Refused(2) => fault.explained(OUTGROWN),
                other => other.of_partial(),
            },
        }
    }

    /// The same of weights for a file that was taken.
    pub fn told_of_weights(
        self,
        fault: Fault,
        file: &[u8],
        notation: Notation,
        weights: &[u8],
    ) -> Fault {
        match (self, notation, self.task(file)) {
            (_, _, Err(fault)) => fault,
            (Reading::Letter, Notation::Old, Ok(_)) => {
                refused::weights(fault, Kind::PartialWeights(file), weights)
            }
            // A partial file's built task has the same features.
            (_, _, Ok(task)) => refused::weights(fault, Kind::Weights(notation, &task), weights),
        }
    }
}

//! The main question: is the order for a bay impossible?

#[cfg(test)]
mod tests;

use crate::bay::Bay;
use crate::bay_text::BayText;
use crate::fault::Fault;
use crate::features::Features;
use crate::files;
use crate::library::{self, Verdict, Weights, Workspace};
use crate::output::Status;
use crate::progress::Telling;
use crate::words::parity;
use std::ffi::OsStr;

/// Silent slots that can be filled in more ways are not asked about way by way.
pub const MOST_WAYS: usize = 24;
/// A question is built, opened, searched and checked; where nothing is found there is nothing to check.
const STEPS: usize = 4;

/// A bay that was asked about, and what came of it.
pub struct Answered {
    pub bay: Bay,
    /// The order as one task; where it has silent slots, with these unknown at the goal.
    pub asked: Asked,
    /// Each way to fill the silent slots, where these were asked one by one.
    pub ways: Vec<Way>,
}

/// A task that the library built, and the proof, if there is one.
pub struct Asked {
    pub task: Vec<u8>,
    pub proof: Option<Proof>,
}

impl Asked {
    pub fn status(&self) -> Status {
        match self.proof {
            Some(_) => Status::Yes,
            None => Status::No,
        }
    }
}

/// One way to fill the silent slots: a full order of its own.
pub struct Way {
    pub bay: Bay,
    pub asked: Asked,
}

impl Answered {
    pub fn status(&self) -> Status {
        match self.is_impossible_each_way() {
            true => Status::Yes,
            false => self.asked.status(),
        }
    }

    /// Whether the ways were asked one by one, and each has a proof of its own. No move makes or
    /// takes away a pallet, so a bay that has what the order names is one of these.
    pub fn is_impossible_each_way(&self) -> bool {
        !self.ways.is_empty() && self.impossible_ways() == self.ways.len()
    }

    pub fn impossible_ways(&self) -> usize {
        let impossible = |way: &&Way| way.asked.status() == Status::Yes;
        self.ways.iter().filter(impossible).count()
    }
}

/// Weights that the checker accepted, and what they count.
pub struct Proof {
    pub features: Features,
    /// The listed features, increasing.
    pub weights: Vec<usize>,
    /// The same as the file that the checker read.
    pub weight_file: Vec<u8>,
    /// The listed features that are true at the start.
    pub true_at_start: Vec<usize>,
    /// The listed features that are true at the goal.
    pub true_at_goal: Vec<usize>,
}

/// Asks about the bay in a file.
pub fn ask(name: &OsStr, telling: &Telling) -> Result<Answered, Fault> {
    ask_text(&BayText::read(&files::read_text(name)?)?, telling)
}

fn ask_text(text: &BayText, telling: &Telling) -> Result<Answered, Fault> {
    let bay = text.bay();
    let asked = put(&bay, telling, || built(text))?;
    let ways = match asked.proof {
        None if !bay.is_full() && bay.ways() <= MOST_WAYS => each_way(&bay, telling)?,
        _ => Vec::new(),
    };
    Ok(Answered { bay, asked, ways })
}

// The task of the order; with silent slots, one whose goal any way to fill them reaches.
fn built(text: &BayText) -> Result<Vec<u8>, Fault> {
    let bay = text.bay();
    let task = library::build(&bay.file()).map_err(|fault| text.place(fault))?;
    if bay.is_full() {
        return Ok(task);
    }
    let partial = library::silence(&task, &bay.marks());
    let lean = partial.and_then(|partial| library::build_partial_lean(&partial));
    lean.map_err(|fault| text.place_silent(fault).of_partial())
}

fn each_way(bay: &Bay, telling: &Telling) -> Result<Vec<Way>, Fault> {
    let ways = bay.completions();
    let total = ways.len();
    let put_way = |(index, bay): (usize, Bay)| {
        let telling = telling.part("way", index + 1, total);
        let asked = put(&bay, &telling, || library::build(&bay.file()))?;
        Ok(Way { bay, asked })
    };
    ways.into_iter().enumerate().map(put_way).collect()
}

// Builds, opens, finds and checks; each step is a proved call.
fn put(
    bay: &Bay,
    telling: &Telling,
    build: impl FnOnce() -> Result<Vec<u8>, Fault>,
) -> Result<Asked, Fault> {
    let mut steps = telling.steps(library::words_due(&bay.sizes()), STEPS);
    let task = steps.take("building the task", build)?;
    let workspace = steps.open(|| library::open(&task))?;
    let found = steps.take("finding weights", || library::find(&workspace))?;
    let Some(found) = found else {
        let proof = None;
        return Ok(Asked { task, proof });
    };
    let check = || checked(&task, workspace, found);
    let proof = Some(steps.take("checking the weights", check)?);
    Ok(Asked { task, proof })
}

// What the finder found counts only after the checker has accepted it.
fn checked(task: &[u8], workspace: Workspace, found: Weights) -> Result<Proof, Fault> {
    if library::check(task, &found.file)? != Verdict::Accepted {
        let line = library::check_line(task, &found.file)?;
        return Err(Fault::Failure(format!(
            "the checker did not accept what the finder found ({line}), so nothing is said"
        )));
    }
    let start = workspace.start();
    let goal = workspace.goal();
    let features = workspace.into_features();
    let proof = Proof {
        true_at_start: features.true_in(&found.features, &start),
        true_at_goal: features.true_in(&found.features, &goal),
        features,
        weights: found.features,
        weight_file: found.file,
    };
    agreed(proof)
}

// The counts that are shown have to bear out the verdict, or the words would mislead.
fn agreed(proof: Proof) -> Result<Proof, Fault> {
    let (start, goal) = (proof.true_at_start.len(), proof.true_at_goal.len());
    if parity(start) == parity(goal) {
        return Err(Fault::Failure(format!(
            "the checker accepted the weights, but the tool counts {start} and {goal}, \
             so nothing is said"
        )));
    }
    Ok(proof)
}

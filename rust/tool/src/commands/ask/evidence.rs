//! The evidence that `ask` keeps: the weights and the task that they are about.

use crate::args::{Arguments, Choice};
use crate::fault::Fault;
use crate::files;
use crate::keeping;
use crate::question::Answered;
use crate::words::shown;
use std::ffi::{OsStr, OsString};

pub const WEIGHTS: Choice = Choice {
    long: "--weights",
    short: None,
    value: Some("FILE"),
    help: "keep the weights that prove it (for one bay)",
};

pub const TASK: Choice = Choice {
    long: "--task",
    short: None,
    value: Some("FILE"),
    help: "keep the task that they are about (for one bay)",
};

/// Files to be written, and what is said of them.
#[derive(Default)]
struct Evidence<'a> {
    files: Vec<(OsString, &'a [u8])>,
    said: String,
}

/// Keeps what the command line asks for, all of it or nothing, and says what was kept: nobody must
/// take an older file for the evidence.
pub fn keep(arguments: &Arguments, answered: &Answered) -> Result<String, Fault> {
    let (weights, task) = (arguments.value(&WEIGHTS), arguments.value(&TASK));
    judge_names(weights, task)?;
    let evidence = match answered.is_impossible_each_way() {
        true => Evidence::of_each_way(answered, weights, task),
        false => Evidence::of_order(answered, weights, task),
    };
    let files = evidence.files.iter().map(|(name, bytes)| (&**name, *bytes));
    keeping::keep(&files.collect::<Vec<_>>(), &arguments.files)?;
    Ok(evidence.said)
}

impl<'a> Evidence<'a> {
    fn of_order(answered: &'a Answered, weights: Option<&OsStr>, task: Option<&OsStr>) -> Self {
        let mut evidence = Evidence::default();
        let asked = &answered.asked;
        if let Some(name) = task {
            evidence.add("Task", name, &asked.task);
        }
        match (weights, &asked.proof) {
            (Some(name), Some(proof)) => evidence.add("Weights", name, &proof.weight_file),
            (Some(name), None) => {
                let name = shown(name);
                evidence.said += &format!("There are no weights; {name} is not written.\n");
            }
            (None, _) => {}
        }
        evidence
    }

    fn add(&mut self, kind: &str, name: &OsStr, bytes: &'a [u8]) {
        self.files.push((name.to_os_string(), bytes));
        self.said += &format!("{kind} kept in {}.\n", shown(name));
    }

    // Each way has its own task and weights, so each gets its number behind the name.
    fn of_each_way(answered: &'a Answered, weights: Option<&OsStr>, task: Option<&OsStr>) -> Self {
        let mut evidence = Evidence::default();
        for (index, way) in answered.ways.iter().enumerate() {
            let proof = way.asked.proof.as_ref();
            let weight_file = proof.map(|proof| &*proof.weight_file);
            let task = task.zip(Some(&*way.asked.task));
            let both = task.into_iter().chain(weights.zip(weight_file));
            let files = both.map(|(name, bytes)| (numbered(name, index + 1), bytes));
            evidence.files.extend(files);
        }
        for (kind, name) in [("Tasks", task), ("Weights", weights)] {
            let name = name.map(shown);
            let ways = answered.ways.len();
            let said = name.map(|name| format!("{kind} kept for each way, in {name}.1 to {name}.{ways}; there is no {name} for all.\n"));
            evidence.said += &said.unwrap_or_default();
        }
        evidence
    }
}

fn numbered(name: &OsStr, number: usize) -> OsString {
    let mut name = name.to_os_string();
    name.push(format!(".{number}"));
    name
}

// Evidence goes to files, each to its own; standard output has the answer.
fn judge_names(weights: Option<&OsStr>, task: Option<&OsStr>) -> Result<(), Fault> {
    let failure = |words: &str| Err(Fault::Failure(words.to_string()));
    let mut names = weights.iter().chain(&task);
    if names.any(|name| files::is_standard(name)) {
        return failure("--weights and --task name files, not standard output");
    }
    match (weights, task) {
        (Some(weights), Some(task)) if files::same(weights, task) => {
            failure("--weights and --task name the same file")
        }
        _ => Ok(()),
    }
}

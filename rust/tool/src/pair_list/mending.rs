//! A pair list mended, with the reason for each pair that is dropped.

use super::task_file::TaskFile;
use super::{Cause, Culprit, Pair};
use crate::fault::Fault;
use crate::library;

/// Each step takes a walk over the whole task, so of a long list only so many are made.
pub const MOST_STEPS: usize = 64;

/// A task file with the largest good part of its pair list.
pub struct Mended {
    pub file: Vec<u8>,
    pub sizes: Vec<usize>,
    /// How many pairs the list had.
    pub listed: usize,
    /// The pairs that are gone, increasing.
    pub dropped: Vec<Dropped>,
}

impl Mended {
    /// How many pairs the list still has.
    pub fn kept(&self) -> usize {
        self.listed - self.dropped.len()
    }
}

/// A pair that is gone, and why.
pub struct Dropped {
    pub pair: Pair,
    /// At which step it went, from 1, and the cause that it had there.
    pub why: Option<(usize, Cause)>,
}

impl Dropped {
    // None where the number is no pair of the file.
    fn new(parts: &TaskFile, steps: &[Culprit], number: usize) -> Option<Dropped> {
        let pair = parts.pair(number)?;
        let step = steps.iter().position(|culprit| culprit.pair == pair);
        let why = step.map(|index| (index + 1, steps[index].cause.clone()));
        Some(Dropped { pair, why })
    }
}

/// Mends a task file. What is said of it comes from three calls that have to bear each other out.
pub fn mend(task: &[u8]) -> Result<Mended, Fault> {
    let file = library::mend(task)?;
    let dropped = library::dropped(task)
        .map_err(|_| disagreement("dropped has no answer where mend has one"))?;
    let parts = TaskFile::read(task).ok_or_else(|| disagreement("mend took what is no task"))?;
    judge(&parts, &dropped, &file)?;
    let steps = steps(&parts, &dropped)?;
    let numbers = dropped.into_iter();
    let dropped: Option<Vec<Dropped>> = numbers
        .map(|number| Dropped::new(&parts, &steps, number))
        .collect();
    Ok(Mended {
        file,
        sizes: parts.sizes().to_vec(),
        listed: parts.pairs.len(),
        dropped: dropped.ok_or_else(|| disagreement("dropped names what is no pair"))?,
    })
}

// The file has to be the task with all pairs but the dropped ones, and its list has to be good.
fn judge(parts: &TaskFile, dropped: &[usize], file: &[u8]) -> Result<(), Fault> {
    let kept = without(&parts.pairs, dropped);
    if kept.len() + dropped.len() != parts.pairs.len() || parts.with(&kept) != file {
        return Err(disagreement("mend and dropped tell of different pairs"));
    }
    match library::pair_fault(file) {
        Ok(None) => Ok(()),
        _ => Err(disagreement(
            "pair_fault does not find good what mend wrote",
        )),
    }
}

/// Takes the pair at fault out of the list, over and over. A pair at fault is in no good part of the
/// list, so each one that goes has to be among the dropped ones, until none of these is left.
fn steps(parts: &TaskFile, dropped: &[usize]) -> Result<Vec<Culprit>, Fault> {
    let mut steps = Vec::new();
    let (mut left, mut due) = (parts.pairs.clone(), dropped.to_vec());
    while !due.is_empty() && steps.len() < MOST_STEPS {
        let fault = library::pair_fault(&parts.with(&left)).ok().flatten();
        let culprit = fault
            .filter(|(pair, _)| due.contains(pair))
            .and_then(|(pair, reason)| parts.culprit(pair, reason))
            .ok_or_else(|| disagreement("pair_fault does not bear out what dropped says"))?;
        let gone = [culprit.pair.number];
        (left, due) = (without(&left, &gone), without(&due, &gone));
        steps.push(culprit);
    }
    Ok(steps)
}

fn without(pairs: &[usize], gone: &[usize]) -> Vec<usize> {
    let stays = |pair: &usize| gone.binary_search(pair).is_err();
    pairs.iter().copied().filter(stays).collect()
}

fn disagreement(words: &str) -> Fault {
    Fault::Failure(format!("the library's {words}, so nothing is said"))
}

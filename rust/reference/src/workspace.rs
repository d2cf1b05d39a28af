//! Workspace words: layout, opening, the test of arbitrary words, and edits.

use crate::feature_set::{words_for, FeatureSet};
use crate::features::{count_features, State};
use crate::finder::least_separating;
use crate::forced::slots;
use crate::limits::{MOST_VALUES, MOST_VARIABLES, NOW};
use crate::operators::{conditions, Entry, Operator, Pairing};
use crate::refusal::Refusal;
use crate::task::Task;

/// What the words of a well formed workspace say.
#[derive(Clone, Debug, PartialEq, Eq)]
pub struct Workspace {
    pub sizes: Vec<usize>,
    pub start: State,
    pub goal: State,
    pub pairs: FeatureSet,
    pub slots: Vec<FeatureSet>,
}

/// The operand of an operator edit, as lent.
#[derive(Clone, Debug, PartialEq, Eq)]
pub struct Record {
    pub count: u64,
    pub variables: Vec<u64>,
    pub befores: Vec<u64>,
    pub afters: Vec<u64>,
}

/// The words due for a workspace of these sizes.
pub fn words_due(sizes: &[usize]) -> usize {
    let count = count_features(sizes);
    1 + 3 * sizes.len() + words_for(count) * (1 + count)
}

/// A word as a number within the range, or none.
fn number_within(word: u64, least: usize, most: usize) -> Option<usize> {
    let number = usize::try_from(word).ok()?;
    (least..=most).contains(&number).then_some(number)
}

/// Cuts words off the front of what is left.
struct Cutter<'a> {
    left: &'a [u64],
}

impl<'a> Cutter<'a> {
    fn cut(&mut self, count: usize) -> Option<&'a [u64]> {
        let (first, rest) = self.left.split_at_checked(count)?;
        self.left = rest;
        Some(first)
    }

    /// A set of features below a number, with unused bits 0.
    fn set(&mut self, count: usize) -> Option<FeatureSet> {
        let set = FeatureSet::from_words(self.cut(words_for(count))?);
        let in_range = set.highest().is_none_or(|highest| highest < count);
        in_range.then_some(set)
    }

    fn state(&mut self, sizes: &[usize]) -> Option<State> {
        let words = self.cut(sizes.len())?;
        words
            .iter()
            .zip(sizes)
            .map(|(word, size)| number_within(*word, 0, size - 1))
            .collect()
    }

    fn sizes(&mut self) -> Option<Vec<usize>> {
        let variables = number_within(self.cut(1)?[0], 1, MOST_VARIABLES)?;
        let words = self.cut(variables)?;
        let sizes: Vec<usize> = words
            .iter()
            .map(|word| number_within(*word, 1, MOST_VALUES))
            .collect::<Option<_>>()?;
        (count_features(&sizes) <= NOW.features).then_some(sizes)
    }
}

/// Whether each slot is empty or has its index as least member and no other filled index.
fn reduced(slots: &[FeatureSet]) -> bool {
    let filled = |index: &usize| !slots[*index].is_empty();
    slots.iter().enumerate().all(|(index, slot)| {
        slot.is_empty()
            || slot.least() == Some(index)
                && slot
                    .members()
                    .iter()
                    .all(|member| *member == index || !filled(member))
    })
}

fn read_words(words: &[u64]) -> Option<Workspace> {
    let mut cutter = Cutter { left: words };
    let sizes = cutter.sizes()?;
    let count = count_features(&sizes);
    let start = cutter.state(&sizes)?;
    let goal = cutter.state(&sizes)?;
    let pairs = cutter.set(count)?;
    let slots: Vec<FeatureSet> = (0..count)
        .map(|_| cutter.set(count))
        .collect::<Option<_>>()?;
    let workspace = Workspace {
        sizes,
        start,
        goal,
        pairs,
        slots,
    };
    workspace.well_formed().then_some(workspace)
}

impl Workspace {
    /// The workspace of an accepted task.
    pub fn of(task: &Task) -> Workspace {
        let pairing = task.pairing();
        let all: Vec<FeatureSet> = task
            .unrepeated()
            .flat_map(|(_, operator)| conditions(&pairing, operator))
            .collect();
        Workspace {
            sizes: task.sizes.clone(),
            start: task.start.clone(),
            goal: task.goal.clone(),
            slots: slots(pairing.features.count(), &all),
            pairs: pairing.listed,
        }
    }

    /// Reads a workspace from words of any origin; further words are ignored.
    pub fn read(words: &[u64]) -> Result<Workspace, Refusal> {
        read_words(words).ok_or(Refusal::Workspace)
    }

    pub fn words(&self) -> Vec<u64> {
        let mut words = vec![self.sizes.len() as u64];
        for list in [&self.sizes, &self.start, &self.goal] {
            words.extend(list.iter().map(|number| *number as u64));
        }
        words.extend(self.pairs.words());
        for slot in &self.slots {
            words.extend(slot.words());
        }
        words
    }

    pub fn pairing(&self) -> Pairing {
        Pairing::new(&self.sizes, &self.pairs.members())
    }

    fn well_formed(&self) -> bool {
        let singles: usize = self.sizes.iter().sum();
        self.pairs.least().is_none_or(|least| least >= singles)
            && !self.pairing().held_by(&self.start)
            && reduced(&self.slots)
    }

    /// The finder's answer; the stored slots stand for all conditions.
    pub fn find(&self) -> Option<FeatureSet> {
        let features = self.pairing().features;
        let ends = features.changed(&self.start, &self.goal);
        least_separating(features.count(), &self.slots, &ends)
    }

    /// Adds an operator's conditions to the stored ones.
    pub fn add_operator(&mut self, record: &Record) -> Result<(), Refusal> {
        let operator = judge_record(record, &self.sizes)?;
        let pairing = self.pairing();
        if !pairing.closed(&operator) {
            return Err(Refusal::NotClosed);
        }
        let mut all = self.slots.clone();
        all.extend(conditions(&pairing, &operator));
        self.slots = slots(pairing.features.count(), &all);
        Ok(())
    }

    pub fn replace_start(&mut self, values: &[u64]) -> Result<(), Refusal> {
        let start = judge_values(values, &self.sizes)?;
        if self.pairing().held_by(&start) {
            return Err(Refusal::StartHoldsPair);
        }
        self.start = start;
        Ok(())
    }

    pub fn replace_goal(&mut self, values: &[u64]) -> Result<(), Refusal> {
        self.goal = judge_values(values, &self.sizes)?;
        Ok(())
    }
}

fn within(word: u64, size: usize) -> Result<usize, Refusal> {
    number_within(word, 0, size - 1).ok_or(Refusal::Range)
}

fn judge_values(values: &[u64], sizes: &[usize]) -> Result<State, Refusal> {
    if values.len() != sizes.len() {
        return Err(Refusal::Range);
    }
    values
        .iter()
        .zip(sizes)
        .map(|(value, size)| within(*value, *size))
        .collect()
}

/// Judges a record in file order: its count, then each entry's variable, before and after.
fn judge_record(record: &Record, sizes: &[usize]) -> Result<Operator, Refusal> {
    let count = number_within(record.count, 1, sizes.len()).ok_or(Refusal::Range)?;
    // Places past the end of a lent list count as 0.
    let at = |list: &[u64], place: usize| list.get(place).copied().unwrap_or(0);
    let mut entries: Vec<Entry> = Vec::new();
    for place in 0..count {
        let variable = within(at(&record.variables, place), sizes.len())?;
        if entries.last().is_some_and(|last| variable <= last.variable) {
            return Err(Refusal::Order);
        }
        entries.push(Entry {
            variable,
            before: within(at(&record.befores, place), sizes[variable])?,
            after: within(at(&record.afters, place), sizes[variable])?,
        });
    }
    Ok(entries.into())
}

//! Task files: read and judged in document 01's order, and written.

use crate::features::{count_features, State};
use crate::kinds::Kind;
use crate::limits::{MOST_VALUES, MOST_VARIABLES};
use crate::numbers::{encode, Reader};
use crate::operators::{Entry, Operator, Pairing};
use crate::refusal::Refusal;
use std::ops::Range;

/// A task as its file lists it.
#[derive(Clone, Debug, PartialEq, Eq)]
pub struct Task {
    pub sizes: Vec<usize>,
    pub start: State,
    pub goal: State,
    pub pairs: Vec<usize>,
    pub operators: Vec<Operator>,
}

impl Task {
    pub fn pairing(&self) -> Pairing {
        Pairing::new(&self.sizes, &self.pairs)
    }

    /// The operators with their places, without those that only repeat the one before.
    pub fn unrepeated(&self) -> impl Iterator<Item = (usize, &Operator)> {
        let operators = self.operators.iter().enumerate();
        operators.filter(|(place, each)| *place == 0 || self.operators[place - 1] != **each)
    }

    /// The numbers of the task file, in order; where nothing is said of its kind, it is the old.
    pub fn numbers(&self) -> Vec<usize> {
        self.numbers_of(Kind::Old)
    }

    pub fn file(&self) -> Vec<u8> {
        self.file_of(Kind::Old)
    }

    /// The numbers of the task file of some kind, in order.
    pub fn numbers_of(&self, kind: Kind) -> Vec<usize> {
        let mut numbers = kind.front();
        numbers.push(self.sizes.len());
        numbers.extend(&self.sizes);
        numbers.extend(&self.start);
        numbers.extend(&self.goal);
        numbers.extend(tail_numbers(kind, &self.pairs, &self.operators));
        numbers
    }

    pub fn file_of(&self, kind: Kind) -> Vec<u8> {
        encode(&self.numbers_of(kind))
    }
}

/// The numbers that stand behind the states: pairs, then operators.
pub(crate) fn tail_numbers(kind: Kind, pairs: &[usize], operators: &[Operator]) -> Vec<usize> {
    let mut numbers = kind.list(pairs);
    numbers.push(operators.len());
    for operator in operators {
        numbers.push(operator.entries.len());
        for entry in operator.entries.iter() {
            numbers.extend([entry.variable, entry.before, entry.after]);
        }
    }
    numbers
}

/// Reads a task file of either kind; the first fault in document 01's order decides.
pub fn read_task(bytes: &[u8]) -> Result<Task, Refusal> {
    task_from(&mut Reader::new(bytes))
}

/// The same by the reader's limits.
pub fn task_from(reader: &mut Reader) -> Result<Task, Refusal> {
    judged(numbers_from(reader)?)
}

/// Reads a task file of the kind that is due.
pub fn task_of_kind(due: Kind, reader: &mut Reader) -> Result<Task, Refusal> {
    judged(numbers_of_kind(due, reader)?)
}

/// A task whose pairs are judged too.
fn judged(task: Task) -> Result<Task, Refusal> {
    judge_pairs(&task)?;
    Ok(task)
}

/// Reads a task file of either kind up to its last byte; pairs aren't judged yet.
pub fn read_numbers(bytes: &[u8]) -> Result<Task, Refusal> {
    numbers_from(&mut Reader::new(bytes))
}

/// The same by the reader's limits.
pub fn numbers_from(reader: &mut Reader) -> Result<Task, Refusal> {
    numbers_of_kind(reader.kind(), reader)
}

/// Reads a task file of the kind that is due up to its last byte.
fn numbers_of_kind(due: Kind, reader: &mut Reader) -> Result<Task, Refusal> {
    reader.front(due)?;
    numbers_behind_front(reader, |reader, range| reader.list(due, range))
}

/// Reads what stands behind a task file's front; pairs of some range are read as is said.
pub fn numbers_behind_front<Listing>(reader: &mut Reader, list: Listing) -> Result<Task, Refusal>
where
    Listing: FnOnce(&mut Reader, &Range<usize>) -> Result<Vec<usize>, Refusal>,
{
    let sizes = read_sizes(reader)?;
    let start = read_state(reader, &sizes)?;
    let goal = read_state(reader, &sizes)?;
    let singles: usize = sizes.iter().sum();
    let pairs = list(reader, &(singles..count_features(&sizes)))?;
    let operators = read_operators(reader, &sizes)?;
    reader.finish()?;
    Ok(Task {
        sizes,
        start,
        goal,
        pairs,
        operators,
    })
}

fn read_sizes(reader: &mut Reader) -> Result<Vec<usize>, Refusal> {
    let variables = reader.number_within(&(1..MOST_VARIABLES + 1), Refusal::Limit)?;
    let mut sizes = Vec::new();
    for _ in 0..variables {
        sizes.push(reader.number_within(&(1..MOST_VALUES + 1), Refusal::Limit)?);
    }
    if count_features(&sizes) > reader.limits.features {
        return Err(Refusal::Limit);
    }
    Ok(sizes)
}

pub(crate) fn read_state(reader: &mut Reader, sizes: &[usize]) -> Result<State, Refusal> {
    sizes
        .iter()
        .map(|size| reader.number_within(&(0..*size), Refusal::Range))
        .collect()
}

pub(crate) fn read_operators(
    reader: &mut Reader,
    sizes: &[usize],
) -> Result<Vec<Operator>, Refusal> {
    let count = reader.number()?;
    let mut operators: Vec<Operator> = Vec::new();
    for _ in 0..count {
        let next = read_operator(reader, sizes)?;
        // Where millions stand in a file they repeat one, which is kept once.
        let repeated = operators.last().filter(|last| **last == next).cloned();
        operators.push(repeated.unwrap_or(next));
    }
    Ok(operators)
}

fn read_operator(reader: &mut Reader, sizes: &[usize]) -> Result<Operator, Refusal> {
    let count = reader.number_within(&(1..sizes.len() + 1), Refusal::Range)?;
    let mut entries: Vec<Entry> = Vec::with_capacity(count);
    for _ in 0..count {
        let variable = reader.number_within(&(0..sizes.len()), Refusal::Range)?;
        // Each number is judged as it is read, so the order comes before the values.
        if entries.last().is_some_and(|last| variable <= last.variable) {
            return Err(Refusal::Order);
        }
        let values = 0..sizes[variable];
        entries.push(Entry {
            variable,
            before: reader.number_within(&values, Refusal::Range)?,
            after: reader.number_within(&values, Refusal::Range)?,
        });
    }
    Ok(entries.into())
}

/// The start holds no listed pair, and the list is closed under each operator.
pub fn judge_pairs(task: &Task) -> Result<(), Refusal> {
    let pairing = task.pairing();
    if pairing.held_by(&task.start) {
        return Err(Refusal::StartHoldsPair);
    }
    if task.unrepeated().all(|(_, each)| pairing.closed(each)) {
        Ok(())
    } else {
        Err(Refusal::NotClosed)
    }
}

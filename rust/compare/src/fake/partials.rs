//! Calls on partial files, and silencing, with faults.

use super::faults::{planted, planted_fault, Fault::*};
use super::files::numbers_of;
use super::kinds::{kind_beside, task_from, weights_from};
use super::limits::{reader, Files};
use super::settling::spoil_partial_opening;
use super::written::written_file;
use reference::calls::{broken, denied, done, refused};
use reference::features::{count_features, Atom};
use reference::kinds::{kind_of, Kind};
use reference::limits::{BEFORE, LARGEST, NOW};
use reference::numbers::encode;
use reference::operators::{Operator, Pairing};
use reference::partial::{
    built_sizes, partial_from, read_built, read_partial, silenced, LeftOut, Partial,
};
use reference::refusal::Refusal;
use reference::sample::partials::completed;
use reference::separation::{verdict, Verdict};
use reference::task::{judge_pairs, Task};
use reference::workspace::Workspace;

/// A partial file, read as leniently as the planted fault says.
fn lenient_partial(bytes: &[u8]) -> Result<Partial, Refusal> {
    let read = partial_from(&mut reader(Files::Partials, bytes));
    let mended = match (planted_fault(), &read) {
        (AnyMarkNames, Err(Refusal::Range)) => with_any_marks(bytes),
        (NamesUnknown, Err(Refusal::Range)) => with_unknown_goals(bytes),
        (FeaturesByOwnSizes, Err(Refusal::Limit)) if fits_by_own_sizes(bytes) => {
            // Reading goes on, and whatever it comes to is another answer.
            return Err(Refusal::InputEnds);
        }
        _ => None,
    };
    mended.map_or(read, Ok)
}

fn with_any_marks(bytes: &[u8]) -> Option<Partial> {
    let mut numbers = numbers_of(bytes);
    let variables = numbers[0];
    for mark in numbers.get_mut(1 + variables..1 + 2 * variables)? {
        *mark = (*mark).min(1);
    }
    read_partial(&encode(&numbers)).ok()
}

/// Reads the goals that are "unknown" as 0 and puts them back.
fn with_unknown_goals(bytes: &[u8]) -> Option<Partial> {
    let mut numbers = numbers_of(bytes);
    let variables = numbers[0];
    let sizes = numbers.get(1..1 + variables)?.to_vec();
    let marks = numbers.get(1 + variables..1 + 2 * variables)?.to_vec();
    let named = (0..variables).filter(|variable| marks[*variable] == 1);
    let mut unknown = Vec::new();
    for (place, variable) in named.enumerate() {
        let goal = numbers.get_mut(1 + 3 * variables + place)?;
        if *goal == sizes[variable] {
            unknown.push(variable);
            *goal = 0;
        }
    }
    let mut partial = read_partial(&encode(&numbers)).ok()?;
    for variable in unknown {
        partial.goal[variable] = Some(sizes[variable]);
    }
    Some(partial)
}

fn fits_by_own_sizes(bytes: &[u8]) -> bool {
    let numbers = numbers_of(bytes);
    let sizes = numbers.first().and_then(|count| numbers.get(1..=*count));
    sizes.is_some_and(|sizes| {
        let in_range = !sizes.is_empty() && sizes.iter().all(|size| (1..64).contains(size));
        in_range && count_features(sizes) <= NOW.features
    })
}

/// Whether a value is exclusive with one of the given values of other variables.
fn exclusive(partial: &Partial, operator: &Operator, others: &[Atom]) -> bool {
    let own = Pairing::new(&partial.sizes, &partial.pairs);
    let forgotten = operator.before_atoms()[0];
    others.iter().any(|other| own.paired(forgotten, *other))
}

/// The forgetting operators that are kept.
fn forgetting(partial: &Partial, left_out: LeftOut) -> Vec<Operator> {
    let lean = left_out == LeftOut::Lean;
    let named = |operator: &Operator| partial.named(operator.entries[0].variable);
    let left_out = match planted_fault() {
        ExclusiveKept if !lean => LeftOut::Nothing,
        LeanAsLetter => LeftOut::ByLetter,
        _ => left_out,
    };
    let mut operators = partial.forgetting_operators(left_out);
    match planted_fault() {
        NamedForgotten if !lean => {
            operators.retain(|each| !exclusive(partial, each, &partial.goal_atoms()));
        }
        StartExclusive => {
            let start = partial.start.iter().enumerate();
            let start: Vec<Atom> = start
                .map(|(variable, value)| Atom {
                    variable,
                    value: *value,
                })
                .collect();
            operators.retain(|each| !exclusive(partial, each, &start));
        }
        LeanKeepsExclusive if lean => {
            operators = partial.forgetting_operators(LeftOut::Nothing);
            operators.retain(|each| !named(each));
        }
        ForgettingByValue => operators.sort_by_key(|each| each.entries[0].before),
        _ => {}
    }
    operators
}

/// The built task of an accepted partial file.
fn faulty_task(partial: Partial, left_out: LeftOut) -> Task {
    let own = partial.operators.len();
    let kept = forgetting(&partial, left_out);
    let (pairs, goal) = (partial.pairs.clone(), partial.goal.clone());
    let mut task = partial.into_built(left_out);
    task.operators.truncate(own);
    task.operators.extend(kept);
    if planted(ForgettingFirst) {
        task.operators.rotate_left(own);
    }
    if planted(PairsKeepNumbers) {
        task.pairs = pairs;
    }
    if planted(SilentGoalFirst) {
        task.goal = goal.iter().map(|goal| goal.unwrap_or(0)).collect();
    }
    task
}

/// The most operators that may be kept.
fn most_kept() -> usize {
    match planted_fault() {
        KeptAsBefore => BEFORE.largest(),
        OneKeptLess => LARGEST - 1,
        OneKeptMore => LARGEST + 1,
        _ => LARGEST,
    }
}

/// Refuses more operators than may be kept.
fn judge_count(partial: &Partial, left_out: LeftOut) -> Result<(), Refusal> {
    let counted = if planted(CountsLeftOut) {
        LeftOut::Nothing
    } else {
        left_out
    };
    let kept = partial.operators.len() + partial.forgetting_operators(counted).len();
    if kept > most_kept() {
        Err(Refusal::Limit)
    } else {
        Ok(())
    }
}

/// The file's refusal by count and pairs, in the order of the planted fault.
fn judged(partial: &Partial, left_out: LeftOut) -> Result<(), Refusal> {
    let pairs = || {
        if planted(PairsByOwnSizes) {
            judge_pairs(&completed(partial))
        } else {
            judge_pairs(&partial.built(left_out))
        }
    };
    match planted_fault() {
        CountUnjudged => pairs(),
        CountAfterPairs => pairs().and_then(|()| judge_count(partial, left_out)),
        _ => judge_count(partial, left_out).and_then(|()| pairs()),
    }
}

fn faulty_built(bytes: &[u8], left_out: LeftOut) -> Result<Task, Refusal> {
    let partial = lenient_partial(bytes)?;
    judged(&partial, left_out)?;
    Ok(faulty_task(partial, left_out))
}

/// Puts what is due into lent room.
fn delivered<Item: Copy + Default>(due: Result<Vec<Item>, Refusal>, room: &mut [Item]) -> u64 {
    let short = |due: Vec<Item>| {
        (due.len() <= room.len())
            .then_some(due)
            .ok_or(Refusal::Room)
    };
    match due.and_then(short) {
        Ok(due) => {
            room[..due.len()].copy_from_slice(&due);
            done(due.len())
        }
        Err(refusal) => {
            if planted(SpoilsRefusedPartial) {
                room.fill(Item::default());
            }
            refused(refusal)
        }
    }
}

/// The words of a built task.
fn opened_words(task: Task) -> Vec<u64> {
    let mut workspace = Workspace::of(&task);
    spoil_partial_opening(&task, &mut workspace.slots);
    workspace.words()
}

pub fn open_partial(partial: &[u8], room: &mut [u64]) -> u64 {
    let task = faulty_built(partial, LeftOut::ByLetter);
    delivered(task.map(opened_words), room)
}

/// The built file; a count that isn't judged goes as far as it can be written.
fn built_file(mut task: Task) -> Vec<u8> {
    task.operators.truncate(LARGEST);
    written_file(BuiltCutsNumbers, &task.numbers())
}

pub fn build_partial(partial: &[u8], room: &mut [u8]) -> u64 {
    delivered(
        faulty_built(partial, LeftOut::ByLetter).map(built_file),
        room,
    )
}

pub fn build_partial_lean(partial: &[u8], room: &mut [u8]) -> u64 {
    delivered(faulty_built(partial, LeftOut::Lean).map(built_file), room)
}

pub fn check_partial(due: Kind, partial: &[u8], weights: &[u8]) -> u64 {
    faulty_verdict(due, partial, weights).unwrap_or_else(refused)
}

fn faulty_verdict(due: Kind, bytes: &[u8], weights: &[u8]) -> Result<u64, Refusal> {
    let due = if planted(PartialTakesOldWeights) {
        Kind::Old
    } else {
        kind_beside(due, bytes)
    };
    let task = faulty_built(bytes, LeftOut::ByLetter)?;
    let read = |sizes: &[usize]| {
        let mut reader = reader(Files::Weights, weights);
        weights_from(due, &mut reader, count_features(sizes))
    };
    if planted(WeightsByOwnSizes) {
        read(&lenient_partial(bytes)?.sizes)?;
    }
    let weights = read(&task.sizes)?;
    Ok(match verdict(&task, &weights) {
        Verdict::Accepted => done(0),
        Verdict::EndsAlike => denied(),
        Verdict::Operator(place) if planted(FileUncounted) => {
            let own = lenient_partial(bytes)?.operators.len();
            broken(place.saturating_sub(own))
        }
        Verdict::Operator(place) => broken(place),
    })
}

/// Marks that the planted fault makes good.
fn lenient_marks(marks: &[u8], variables: usize) -> Vec<u8> {
    let mut marks = marks.to_vec();
    if planted(MarksLengthUnjudged) {
        marks.resize(variables, 0);
    }
    if planted(AnyByteNames) {
        marks = marks.into_iter().map(|mark| mark.min(1)).collect();
    }
    marks
}

pub fn silence(task: &[u8], marks: &[u8], room: &mut [u8]) -> u64 {
    delivered(faulty_silence(task, marks), room)
}

/// What silencing would make of a task that is too large for it.
fn too_large(task: Task, marks: &[u8]) -> Partial {
    let ends = task.goal.iter().zip(marks);
    Partial {
        goal: ends
            .map(|(value, mark)| (*mark == 1).then_some(*value))
            .collect(),
        sizes: task.sizes,
        start: task.start,
        pairs: task.pairs,
        operators: task.operators,
    }
}

/// Refuses a partial file for this reason where its built task is refused for it.
fn refuse_where_built(partial: &Partial, reason: Refusal) -> Result<(), Refusal> {
    match read_built(&partial.file(), LeftOut::ByLetter) {
        Err(refusal) if refusal == reason => Err(reason),
        _ => Ok(()),
    }
}

fn faulty_silence(task: &[u8], marks: &[u8]) -> Result<Vec<u8>, Refusal> {
    if planted(MarksBeforeTask) && marks.iter().any(|mark| *mark > 1) {
        return Err(Refusal::Range);
    }
    let kind = kind_of(task);
    let task = task_from(Files::Silenced, &mut reader(Files::Silenced, task))?;
    let marks = lenient_marks(marks, task.sizes.len());
    let silent = silenced(&task, &marks);
    if planted(SilencesTooLarge) && silent == Err(Refusal::Limit) {
        return Ok(too_large(task, &marks).file());
    }
    let partial = silent?;
    let features = count_features(&built_sizes(&partial.sizes));
    if planted(SilencesAsBefore) && features > BEFORE.features {
        return Err(Refusal::Limit);
    }
    match planted_fault() {
        SilencingJudgesPairs => refuse_where_built(&partial, Refusal::NotClosed)?,
        SilencingCounts => refuse_where_built(&partial, Refusal::Limit)?,
        _ => {}
    }
    if planted(SilentGoalsWritten) {
        let mut numbers = partial.numbers();
        let states = 1 + 3 * task.sizes.len();
        let named = partial.goal_atoms().len();
        numbers.splice(states..states + named, task.goal);
        return Ok(encode(&numbers));
    }
    let numbers = silenced_numbers(kind, &partial);
    Ok(written_file(SilencingCutsNumbers, &numbers))
}

/// The numbers of a partial file that is made of a task of some kind.
fn silenced_numbers(kind: Kind, partial: &Partial) -> Vec<usize> {
    let mut numbers = partial.numbers();
    match (planted_fault(), kind) {
        (SilencingKeepsMark, Kind::New) => numbers.insert(0, 0),
        (SilencingByGaps, Kind::New) => {
            let list = 1 + 3 * partial.sizes.len() + partial.goal_atoms().len();
            let gaps = Kind::New.list(&partial.pairs);
            numbers.splice(list..list + gaps.len(), gaps);
        }
        _ => {}
    }
    numbers
}

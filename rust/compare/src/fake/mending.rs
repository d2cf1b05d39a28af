//! Mended lists, what is dropped of them and what is at fault with them, with faults.

use super::faults::{planted, planted_fault, Fault::*};
use super::files::without_left_over;
use super::kinds::{mended_numbers, numbers_from};
use super::limits::{reader, Files};
use super::written::written_file;
use reference::calls::{done, fill, held, settle, unclosed};
use reference::features::Feature;
use reference::kinds::{kind_of, Kind};
use reference::mending::{first_fault, PairFault};
use reference::operators::{Operator, Pairing};
use reference::refusal::Refusal;
use reference::task::Task;

/// The listed pairs of an operator's after atoms, whatever excuses them.
fn of_afters(pairing: &Pairing, operator: &Operator) -> Vec<usize> {
    let afters = operator.after_atoms();
    let mut pairs = pairing.listed.members();
    pairs.retain(|pair| match pairing.features.feature(*pair) {
        Feature::Mixed(one, other) => afters.contains(&one) || afters.contains(&other),
        Feature::Single(_) => false,
    });
    pairs
}

/// The pairs that an operator makes drop.
fn faulty_unclosed(pairing: &Pairing, operator: &Operator) -> Vec<usize> {
    let mut pairs = pairing.unclosed(operator);
    match planted_fault() {
        NamedPairsOnly => pairs.retain(|pair| match pairing.features.feature(*pair) {
            Feature::Mixed(one, other) => {
                operator.names(one.variable) && operator.names(other.variable)
            }
            Feature::Single(_) => false,
        }),
        ExcusedDropped if !pairs.is_empty() => return of_afters(pairing, operator),
        IdleDropped if pairing.idle(operator) => return of_afters(pairing, operator),
        _ => {}
    }
    pairs
}

/// Whether an operator is judged again once a pair is dropped.
fn wakes(pair: Feature, operator: &Operator) -> bool {
    let befores = operator.before_atoms();
    match (planted_fault(), pair) {
        (OnePass, _) | (_, Feature::Single(_)) => false,
        (FirstAtomWakes, Feature::Mixed(first, _)) => befores.contains(&first),
        (_, Feature::Mixed(first, second)) => befores.contains(&first) || befores.contains(&second),
    }
}

/// The pairs that no operator has to make drop.
fn dropped_at_first(task: &Task, pairing: &Pairing) -> Vec<usize> {
    match planted_fault() {
        HeldPairsKept => Vec::new(),
        GoalPairsDropped => {
            let mut pairs = [pairing.held(&task.start), pairing.held(&task.goal)].concat();
            pairs.sort_unstable();
            pairs.dedup();
            pairs
        }
        _ => pairing.held(&task.start),
    }
}

/// The pairs that mending drops, in the order in which it does: operators wait to be judged, and
/// those that a dropped pair may concern wait again.
fn drops(task: &Task) -> Vec<usize> {
    let came = task.pairing();
    let mut left = came.clone();
    let mut drops = dropped_at_first(task, &came);
    for pair in &drops {
        left.listed.remove(*pair);
    }
    let operators: Vec<&Operator> = task.unrepeated().map(|(_, each)| each).collect();
    let mut waiting = vec![true; operators.len()];
    while let Some(place) = waiting.iter().position(|waits| *waits) {
        waiting[place] = false;
        let operator = operators[place];
        if planted(IdleStaysIdle) && came.idle(operator) {
            continue;
        }
        for pair in faulty_unclosed(&left, operator) {
            left.listed.remove(pair);
            drops.push(pair);
            for (waits, other) in waiting.iter_mut().zip(&operators) {
                *waits |= wakes(came.features.feature(pair), other);
            }
        }
    }
    if planted(OnePairTooMany) && !drops.is_empty() {
        drops.extend(left.listed.highest());
    }
    drops
}

/// A task to mend, read by the planted limit.
fn read(bytes: &[u8]) -> Result<Task, Refusal> {
    numbers_from(Files::Mended, &mut reader(Files::Mended, bytes))
}

/// A task to mend, judged as the planted fault says.
fn judged(bytes: &[u8], room: &[u8]) -> Result<Task, Refusal> {
    if planted(MendingRoomFirst) && room.is_empty() {
        return Err(Refusal::Room);
    }
    let task = if planted(MendingTakesLeftOver) {
        read(without_left_over(bytes))?
    } else {
        read(bytes)?
    };
    match (planted_fault(), first_fault(&task)) {
        (MendingRefusesHeld, Some(PairFault::Held(_))) => Err(Refusal::StartHoldsPair),
        (MendingRefusesUnclosed, Some(PairFault::Unclosed { .. })) => Err(Refusal::NotClosed),
        _ => Ok(task),
    }
}

/// Puts a file into lent room.
fn delivered(file: Result<Vec<u8>, Refusal>, room: &mut [u8]) -> u64 {
    let filled = file.and_then(|mut file| {
        if planted(MendingFillsShortRoom) {
            file.truncate(room.len());
        }
        fill(room, &file)
    });
    if planted(MendingSpoilsRefused) && filled.is_err() {
        room.fill(0);
    }
    settle(filled)
}

fn mended_file(bytes: &[u8], room: &[u8]) -> Result<Vec<u8>, Refusal> {
    let came = judged(bytes, room)?;
    if planted(MendingRoomAsCame) && room.len() < bytes.len() {
        return Err(Refusal::Room);
    }
    let drops = drops(&came);
    let mut task = came.clone();
    task.pairs.retain(|pair| !drops.contains(pair));
    let kind = kind_of(bytes);
    let mut numbers = mended_numbers(&came, &task, kind);
    if planted(MendingCountAsCame) {
        numbers[kind.front().len() + 1 + 3 * task.sizes.len()] = came.pairs.len();
    }
    Ok(written_file(MendingCutsNumbers, &numbers))
}

pub fn mend(bytes: &[u8], room: &mut [u8]) -> u64 {
    let answer = delivered(mended_file(bytes, room), room);
    if planted(MendingLeavesTail) && answer < done(bytes.len()) {
        let length = answer as usize;
        let tail = room[length..].iter_mut().zip(&bytes[length..]);
        tail.for_each(|(byte, came)| *byte = *came);
    }
    answer
}

fn dropped_file(bytes: &[u8], room: &[u8]) -> Result<Vec<u8>, Refusal> {
    let task = judged(bytes, room)?;
    let mut drops = drops(&task);
    if !planted(DroppedUnordered) {
        drops.sort_unstable();
    }
    if planted(DroppedWithoutHeld) {
        let held = task.pairing().held(&task.start);
        drops.retain(|pair| !held.contains(pair));
    }
    if planted(DroppedWithoutLast) && drops.len() > 1 {
        drops.pop();
    }
    let numbers = match (planted_fault(), kind_of(bytes)) {
        (DroppedByGaps, Kind::New) => Kind::New.list(&drops),
        _ => [&[drops.len()], &drops[..]].concat(),
    };
    Ok(written_file(DroppedCutsNumbers, &numbers))
}

pub fn dropped(bytes: &[u8], room: &mut [u8]) -> u64 {
    delivered(dropped_file(bytes, room), room)
}

/// The pair that is told where the start holds some.
fn held_fault(task: &Task, pairing: &Pairing) -> Option<PairFault> {
    let pairs = pairing.held(&task.start);
    let pair = if planted(NamingLastHeld) {
        pairs.last()
    } else {
        pairs.first()
    };
    pair.map(|pair| PairFault::Held(*pair))
}

/// The pair and the operator that are told where some are unclosed.
fn unclosed_fault(task: &Task, pairing: &Pairing) -> Option<PairFault> {
    let mut faults = Vec::new();
    for (operator, each) in task.unrepeated() {
        let pairs = pairing.unclosed(each);
        let pair = if planted(NamingLastPair) {
            pairs.last()
        } else {
            pairs.first()
        };
        faults.extend(pair.map(|pair| (*pair, operator)));
    }
    let fault = match planted_fault() {
        NamingLastOperator => faults.last(),
        NamingLeastOfAll => faults.iter().min(),
        _ => faults.first(),
    };
    let (pair, mut operator) = *fault?;
    if planted(NamingCountsLive) {
        let earlier = &task.operators[..operator];
        operator = earlier.iter().filter(|each| !pairing.idle(each)).count();
    }
    Some(PairFault::Unclosed { pair, operator })
}

fn faulty_fault(task: &Task) -> Option<PairFault> {
    let pairing = task.pairing();
    let held = held_fault(task, &pairing);
    let unclosed = unclosed_fault(task, &pairing);
    if planted(NamingOperatorsFirst) {
        unclosed.or(held)
    } else {
        held.or(unclosed)
    }
}

/// The words that are asked for.
fn words_due(fault: Option<PairFault>) -> usize {
    match (planted_fault(), fault) {
        (NamingGoodInNoWord, None) => 0,
        (NamingHeldInOneWord, Some(PairFault::Held(_))) => 1,
        _ => 2,
    }
}

fn told(bytes: &[u8], room: &mut [u64]) -> Result<u64, Refusal> {
    if planted(NamingRoomFirst) && room.len() < 2 {
        return Err(Refusal::Room);
    }
    let fault = faulty_fault(&read(bytes)?);
    if room.len() < words_due(fault) {
        return Err(Refusal::Room);
    }
    match fault {
        None => {
            if planted(NamingClearsGood) {
                room[..2].fill(0);
            }
            Ok(done(0))
        }
        Some(PairFault::Held(_)) if planted(NamingRefuses) => Err(Refusal::StartHoldsPair),
        Some(PairFault::Held(pair)) => {
            room[0] = pair as u64;
            if planted(NamingFillsBothWords) {
                room[1] = 0;
            }
            Ok(held())
        }
        Some(PairFault::Unclosed { .. }) if planted(NamingRefuses) => Err(Refusal::NotClosed),
        Some(PairFault::Unclosed { pair, operator }) => {
            (room[0], room[1]) = (pair as u64, operator as u64);
            let value = if planted(NamingInValue) { operator } else { 0 };
            Ok(unclosed() + value as u64)
        }
    }
}

pub fn pair_fault(bytes: &[u8], room: &mut [u64]) -> u64 {
    let told = told(bytes, room);
    if planted(NamingSpoilsRefused) && told.is_err() {
        room.fill(0);
    }
    settle(told)
}

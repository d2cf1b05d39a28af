//! The bay builder with faults.

use super::faults::{planted, planted_fault, Fault::*};
use super::files::numbers_of;
use super::limits::{reader, Files};
use super::written::written_file;
use reference::bay::{lists_from, Bay, GAP};
use reference::calls::{done, fill, refused, settle};
use reference::limits::{BEFORE, NOW};
use reference::refusal::Refusal;
use reference::task::Task;

pub fn build(bay: &[u8], room: &mut [u8]) -> u64 {
    let bay = faulty_lists(bay).and_then(|bay| judged(&bay).map(|()| bay));
    let mislabelled = matches!(bay, Err(Refusal::Gap | Refusal::Lots));
    if planted(RoomBeforeLabels) && mislabelled && room.len() < 25 {
        return refused(Refusal::Room);
    }
    settle(bay.and_then(|bay| {
        let numbers = faulty_task(&bay).numbers();
        let file = written_file(BuildCutsNumbers, &numbers);
        match planted_fault() {
            BuildingFillsShortRoom => fill(room, &file[..file.len().min(room.len())]),
            LengthUntold => fill(room, &file).map(|_| done(0)),
            _ => fill(room, &file),
        }
    }))
}

/// A bay file, read as the planted fault says.
fn faulty_lists(bytes: &[u8]) -> Result<Bay, Refusal> {
    let read = lists_from(&mut reader(Files::Bays, bytes));
    match (planted_fault(), &read) {
        (LabelsAsBefore, Ok(bay))
            if bay.numbers()[2..]
                .iter()
                .any(|label| *label >= BEFORE.slots) =>
        {
            Err(Refusal::Range)
        }
        // Reading goes on, and whatever it comes to is another answer.
        (SidesAsSlots, Err(Refusal::Limit)) if is_long(&numbers_of(bytes)) => {
            Err(Refusal::InputEnds)
        }
        _ => read,
    }
}

/// Whether a side is too long, but the slots aren't too many.
fn is_long(numbers: &[usize]) -> bool {
    let [rows, columns, ..] = *numbers else {
        return false;
    };
    (2..=NOW.slots).contains(&rows.saturating_mul(columns))
}

/// How a bay's labels are judged.
fn judged(bay: &Bay) -> Result<(), Refusal> {
    let (gaps, lots) = (bay.judge_gaps(), bay.judge_lots());
    match planted_fault() {
        LotsBeforeGaps => lots.and(gaps),
        LotsAsGaps => gaps.and(lots.or(Err(Refusal::Gap))),
        StartGapAlone => {
            let goal = bay.start.clone();
            Bay {
                goal,
                ..bay.clone()
            }
            .judge_gaps()
            .and(lots)
        }
        EqualGapsPass if lots.is_ok() => Ok(()),
        GoalLotsOccur if bay.goal.iter().all(|label| bay.start.contains(label)) => gaps,
        LastLotsUncounted if (0..bay.slots() - 2).all(|label| bay.equally_often(label)) => gaps,
        _ => gaps.and(lots),
    }
}

fn faulty_task(bay: &Bay) -> Task {
    let mut task = bay.task();
    match planted_fault() {
        NeighboursAcrossRows => {
            let columns = bay.slots();
            let row = Bay {
                rows: 1,
                columns,
                ..bay.clone()
            };
            task.operators = row.task().operators;
        }
        TwicePaired => task.pairs = bay.pairs(&bay.labels(|times| times == 1 || times == 2)),
        GapPairsAlone if bay.has_alike() => task.pairs = bay.pairs(&[GAP]),
        StartAsGoal => task.goal.clone_from(&task.start),
        AbsentSlide => task.operators = bay.operators(&bay.labels(|_| true)),
        AlikeStay => {
            let alike = bay.labels(|times| times > 1);
            let mut sliding = bay.labels(|times| times > 0);
            sliding.retain(|label| Some(label) != alike.last());
            task.operators = bay.operators(&sliding);
        }
        _ => {}
    }
    task
}

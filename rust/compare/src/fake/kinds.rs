//! Files of both kinds, read and written with faults, and the calls that convert them.

use super::faults::{planted, planted_fault, Fault::*};
use super::limits::{reader, Files};
use super::written::written_file;
use reference::calls::{fill, refused, settle};
use reference::feature_set::FeatureSet;
use reference::features::count_features;
use reference::kinds::{kind_of, Kind};
use reference::limits::NOW;
use reference::numbers::Reader;
use reference::refusal::Refusal;
use reference::task::{judge_pairs, numbers_behind_front, Task};
use reference::weights::read_weights;
use std::ops::Range;

/// The feature that a number of a gap list stands for.
fn behind_gap(last: Option<usize>, number: usize, range: &Range<usize>) -> usize {
    let feature = match (planted_fault(), last) {
        (FirstPairFromSingles, None) => range.start + number,
        (GapsReadWhole, Some(last)) => last + number,
        (_, last) => last.map_or(0, |last| last + 1) + number,
    };
    if planted(GapSumsInSixteenBits) {
        feature % (1 << 16)
    } else {
        feature
    }
}

/// A feature of a gap list if it is in range, by the planted fault.
fn within(feature: usize, range: &Range<usize>) -> Result<usize, Refusal> {
    match planted_fault() {
        _ if range.contains(&feature) => Ok(feature),
        SinglesInGapLists if feature < range.start => Ok(feature),
        // What is past the range can't be held; any other answer is a fault.
        GapsOnePast if feature == range.end => Ok(feature - 1),
        PastRangeUnordered if feature >= range.end => Err(Refusal::Order),
        _ => Err(Refusal::Range),
    }
}

fn gap_list(reader: &mut Reader, range: &Range<usize>) -> Result<Vec<usize>, Refusal> {
    let count = reader.number()?;
    let mut list = Vec::new();
    let mut judged = Ok(0);
    for _ in 0..count {
        let number = reader.number()? as usize;
        let feature = behind_gap(list.last().copied(), number, range);
        judged = judged.and(within(feature, range));
        if planted(RangeAtListEnd) {
            list.push(feature);
        } else {
            list.push(judged?);
        }
    }
    // Where a fault repeats a feature, it is held once.
    list.sort_unstable();
    list.dedup();
    judged.map(|_| list)
}

fn listed(kind: Kind, reader: &mut Reader, range: &Range<usize>) -> Result<Vec<usize>, Refusal> {
    match kind {
        Kind::Old => reader.list(Kind::Old, range),
        Kind::New => gap_list(reader, range),
    }
}

/// Reads what stands in front of a file of the kind that is due.
fn front(due: Kind, reader: &mut Reader) -> Result<(), Refusal> {
    let marked = reader.kind() == Kind::New;
    let read = reader.front(due);
    match (planted_fault(), read) {
        (MarkByFirstByte, Err(Refusal::NotShortest | Refusal::MoreFollows)) => Err(Refusal::Range),
        (MarkRefusedAsLimit, Err(Refusal::Range)) => Err(Refusal::Limit),
        (OldRefusedAsRange, Ok(())) if due == Kind::Old && marked => Err(Refusal::Range),
        (_, read) => read,
    }
}

/// Reads a task file of the kind that is due up to its last byte.
fn numbers_of_kind(due: Kind, reader: &mut Reader) -> Result<Task, Refusal> {
    numbers_behind_front(reader, |reader, range| listed(due, reader, range))
}

/// Reads a task file of either kind up to its last byte.
pub fn numbers_from(files: Files, reader: &mut Reader) -> Result<Task, Refusal> {
    let kind = if planted(OldKindAlone(files)) {
        Kind::Old
    } else {
        reader.kind()
    };
    reader.front(kind)?;
    numbers_of_kind(kind, reader)
}

/// The same with its pairs judged.
pub fn task_from(files: Files, reader: &mut Reader) -> Result<Task, Refusal> {
    let task = numbers_from(files, reader)?;
    judge_pairs(&task)?;
    Ok(task)
}

/// Reads weights of the kind that is due, for a task of so many features.
pub fn weights_from(due: Kind, reader: &mut Reader, count: usize) -> Result<FeatureSet, Refusal> {
    let due = match planted_fault() {
        WeightsOfEitherKind if due == Kind::New => reader.kind(),
        _ => due,
    };
    if due == Kind::New {
        front(due, reader)?;
    }
    let listed = listed(due, reader, &(0..count))?;
    reader.finish()?;
    Ok(FeatureSet::of(count, &listed))
}

/// The kind of weights that a call reads beside a task.
pub fn kind_beside(due: Kind, task: &[u8]) -> Kind {
    if planted(WeightKindOfTask) {
        kind_of(task)
    } else {
        due
    }
}

/// The numbers that stand for increasing features, the first of which is at least the given one.
fn gaps(features: &[usize], least: usize) -> Vec<usize> {
    let less = usize::from(!planted(GapsWrittenWhole));
    let base = if planted(FirstWrittenFromSingles) {
        least
    } else {
        0
    };
    let first = features.iter().take(1).map(|first| first - base);
    let others = features.windows(2).map(|two| two[1] - two[0] - less);
    first.chain(others).collect()
}

/// A list as a file of some kind has it, without its count.
fn list_of(kind: Kind, features: &[usize], least: usize) -> Vec<usize> {
    match kind {
        Kind::Old if planted(GapsLeft) => gaps(features, least),
        Kind::Old => features.to_vec(),
        Kind::New => gaps(features, least),
    }
}

/// The numbers of a converted task file.
fn task_numbers(kind: Kind, task: &Task) -> Vec<usize> {
    let mut numbers = task.numbers();
    let list = 2 + 3 * task.sizes.len();
    let singles = task.sizes.iter().sum();
    let pairs = list_of(kind, &task.pairs, singles);
    numbers.splice(list..list + task.pairs.len(), pairs);
    let marked = match planted_fault() {
        MarkUnwritten => false,
        MarkKept => true,
        _ => kind == Kind::New,
    };
    numbers.splice(0..0, marked.then_some(0));
    numbers
}

/// The numbers of a converted weight file.
fn weight_numbers(kind: Kind, weights: &FeatureSet) -> Vec<usize> {
    let members = weights.members();
    let mut numbers = list_of(kind, &members, 0);
    numbers.insert(0, members.len());
    match (planted_fault(), kind) {
        (WeightMarkUnwritten, Kind::New) => {}
        (WeightMarkBehindCount, Kind::New) => numbers.insert(1, 0),
        (WeightMarkKept, Kind::Old) | (_, Kind::New) => numbers.insert(0, 0),
        (_, Kind::Old) => {}
    }
    numbers
}

/// Puts a file, made of another, into lent room.
fn delivered(file: Result<Vec<u8>, Refusal>, came: usize, room: &mut [u8]) -> u64 {
    let filled = file.and_then(|mut file| {
        let due = file.len();
        match planted_fault() {
            ConversionRoomAsCame if room.len() < came => return Err(Refusal::Room),
            ConversionRoomOneMore if room.len() == due => return Err(Refusal::Room),
            ConversionFillsShortRoom => file.truncate(room.len()),
            _ => {}
        }
        let answer = fill(room, &file)?;
        if planted(ConversionClearsBehind) {
            room[file.len()..]
                .iter_mut()
                .take(1)
                .for_each(|byte| *byte = 0);
        }
        Ok(answer)
    });
    if planted(ConversionSpoilsRefused) && filled.is_err() {
        room.fill(0);
    }
    settle(filled)
}

/// A task file to convert, judged as the planted fault says.
fn judged(due: Kind, bytes: &[u8], room: &[u8]) -> Result<Task, Refusal> {
    if planted(ConversionRoomFirst) && room.is_empty() {
        return Err(Refusal::Room);
    }
    let due = match planted_fault() {
        ToNewTakesEither if due == Kind::Old => kind_of(bytes),
        ToOldTakesEither if due == Kind::New => kind_of(bytes),
        _ => due,
    };
    let mut reader = reader(Files::Converted, bytes);
    front(due, &mut reader)?;
    let task = numbers_of_kind(due, &mut reader)?;
    let pairs = judge_pairs(&task);
    match planted_fault() {
        ConversionTakesUnclosed => {}
        ConversionRoomBeforePairs if room.is_empty() => return Err(Refusal::Room),
        _ => pairs?,
    }
    Ok(task)
}

pub fn convert(due: Kind, bytes: &[u8], room: &mut [u8]) -> u64 {
    let file = judged(due, bytes, room)
        .map(|task| written_file(ConversionCutsNumbers, &task_numbers(due.other(), &task)));
    delivered(file, bytes.len(), room)
}

/// Weights to convert, and a task beside them, judged as the planted fault says.
fn judged_weights(due: Kind, task: &[u8], weights: &[u8]) -> Result<FeatureSet, Refusal> {
    if planted(WeightsConvertedFirst) {
        read_weights(due, weights, NOW.features)?;
    }
    let kind = kind_beside(due, task);
    let task = task_from(Files::Converted, &mut reader(Files::Converted, task))?;
    let count = if planted(WeightsConvertedWidely) {
        NOW.features
    } else {
        count_features(&task.sizes)
    };
    weights_from(kind, &mut reader(Files::ConvertedWeights, weights), count)
}

pub fn convert_weights(due: Kind, task: &[u8], weights: &[u8], room: &mut [u8]) -> u64 {
    if planted(ConversionRoomFirst) && room.is_empty() {
        return refused(Refusal::Room);
    }
    let file = judged_weights(due, task, weights).map(|weights| {
        let numbers = weight_numbers(due.other(), &weights);
        written_file(ConversionCutsNumbers, &numbers)
    });
    delivered(file, weights.len(), room)
}

/// The numbers of a mended file in the kind that came.
pub fn mended_numbers(came: &Task, mended: &Task, kind: Kind) -> Vec<usize> {
    let mut numbers = mended.numbers_of(kind);
    match planted_fault() {
        MendingWritesOld => return mended.numbers(),
        MendingKeepsGaps if kind == Kind::New => {
            let gaps = Kind::New.list(&came.pairs);
            let kept = came.pairs.iter().zip(&gaps[1..]);
            let kept = kept.filter(|(pair, _)| mended.pairs.contains(pair));
            let list = 3 + 3 * came.sizes.len();
            numbers.splice(
                list..list + mended.pairs.len(),
                kept.map(|(_, gap)| *gap).collect::<Vec<_>>(),
            );
        }
        _ => {}
    }
    numbers
}

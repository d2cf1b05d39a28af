//! What is shown of files at fault, with faults.

use super::faults::{planted, planted_fault, Fault::*};
use super::files::number_at;
use super::limits::{self, reader};
use reference::bay::bay_from;
use reference::calls::{done, in_weights, refused};
use reference::features::count_features;
use reference::kinds::{kind_of, Kind};
use reference::limits::{MOST_LINE_BYTES, NOW};
use reference::partial::{built_from, read_partial, LeftOut};
use reference::places::{read, read_weight_file, Fault, File, Part};
use reference::refusal::Refusal;
use reference::task::read_task;
use std::ops::Range;

/// The files that a call is lent; beside a bay there are no weights.
#[derive(Clone, Copy)]
struct Files<'a> {
    task: &'a [u8],
    weights: &'a [u8],
    /// The kind of weights that is due.
    due: Kind,
}

impl<'a> Files<'a> {
    fn bytes(self, file: File) -> &'a [u8] {
        match file {
            File::Task => self.task,
            File::Weights => self.weights,
        }
    }

    /// Whether a file is read as one of the new kind.
    fn marked(self, file: File) -> bool {
        match file {
            File::Task => kind_of(self.task) == Kind::New,
            File::Weights => self.due == Kind::New,
        }
    }
}

/// The numbers that end before a place or at it.
fn numbers_before(bytes: &[u8], place: usize) -> Vec<Range<usize>> {
    let mut numbers = Vec::new();
    let mut next = 0;
    while next < place {
        numbers.push(number_at(bytes, next));
        next = number_at(bytes, next).end;
    }
    numbers
}

/// The number before the one that begins at a place; the first has none.
fn number_before(bytes: &[u8], place: usize) -> Range<usize> {
    let mut numbers = numbers_before(bytes, place);
    numbers.pop().unwrap_or(0..0)
}

/// Where the count of variables stands, or the rows of a bay.
fn count_place(bytes: &[u8]) -> usize {
    match kind_of(bytes) {
        Kind::Old => 0,
        Kind::New => 1,
    }
}

/// Whether the last of several numbers is at fault though it is good in itself.
fn broken_by_several(bytes: &[u8], part: &Range<usize>) -> bool {
    let last = bytes[part.start];
    let count = count_place(bytes);
    let sides = part.start == 1 && count == 0 && (1..=9).contains(&last);
    // A single size never makes too many features.
    let sizes = part.start > count + 1 && part.start == count + usize::from(bytes[count]);
    sides || sizes && (1..=64).contains(&last)
}

/// The part of a limit that several numbers break: sizes, or the sides of a bay.
fn faulty_limit(bytes: &[u8], part: Range<usize>) -> Range<usize> {
    let sides = part.start == 1;
    let count = count_place(bytes);
    match planted_fault() {
        FeaturesBehindSizes if !sides => number_at(bytes, part.end),
        FeaturesAtCount if !sides => count..count + 1,
        FeaturesAtAllSizes if !sides => count + 1..part.end,
        SlotsAtRows if sides => 0..1,
        SlotsBehindSides if sides => number_at(bytes, part.end),
        _ => part,
    }
}

/// What the planted fault makes of a part by the reason for which it is shown.
fn part_by_reason(bytes: &[u8], refusal: Refusal, part: Range<usize>) -> Range<usize> {
    let (start, end) = (part.start, part.end);
    match (planted_fault(), refusal) {
        (ZeroByteUnshown, Refusal::NotShortest) => start..end - 1,
        (FourthByteShown, Refusal::MoreFollows) => start..bytes.len().min(end + 1),
        (FirstByteOfEndless, Refusal::MoreFollows) => start..start + 1,
        (TwoBytesOfEndless, Refusal::MoreFollows) => start..start + 2,
        (CutNumberUnshown, Refusal::InputEnds) => start..start,
        (CutNumberAtEnd, Refusal::InputEnds) => end..end,
        (LastNumberShown, Refusal::InputEnds) if part.is_empty() => number_before(bytes, start),
        (OrderAtNumberBefore, Refusal::Order) => number_before(bytes, start),
        (OrderWithNumberBefore, Refusal::Order) => number_before(bytes, start).start..end,
        (_, Refusal::Limit) if broken_by_several(bytes, &part) => faulty_limit(bytes, part),
        _ => part,
    }
}

/// What the planted fault makes of any part of a file with a mark or without.
fn faulty_part(bytes: &[u8], marked: bool, part: Range<usize>) -> Range<usize> {
    let (start, end) = (part.start, part.end);
    match planted_fault() {
        PlaceOneByteOn => start + 1..end + 1,
        PlaceOneNumberEarly => number_before(bytes, start),
        PlaceInNumbers => {
            let before = numbers_before(bytes, start).len();
            before..before + part.len()
        }
        PlaceInSixteenBits => {
            let place = start % (1 << 16);
            place..place + part.len()
        }
        PlaceBehindPart => end..end + part.len(),
        LengthOneMore => start..end + 1,
        NoLength => start..start,
        OneByteShown => start..end.min(start + 1),
        ShownToTheEnd => start..bytes.len(),
        MarkUncounted if marked && start > 0 => start - 1..end - 1,
        _ => part,
    }
}

/// The part of a refusal that has a place.
fn placed(files: Files, refusal: Refusal, part: Part) -> Part {
    let bytes = files.bytes(part.file);
    let range = part_by_reason(bytes, refusal, part.bytes);
    let range = faulty_part(bytes, files.marked(part.file), range);
    let behind_task = range.start + files.task.len()..range.end + files.task.len();
    let (file, bytes) = match (planted_fault(), part.file) {
        (TaskShownInWeights, File::Task) => (File::Weights, range),
        (WeightsShownInTask, File::Weights) => (File::Task, range),
        (WeightsBehindTask, File::Weights) => (File::Weights, behind_task),
        (_, file) => (file, range),
    };
    Part { file, bytes }
}

/// The part of a refusal that has none, or of none at all.
fn unplaced(files: Files, refusal: Option<Refusal>) -> Part {
    let length = files.task.len();
    let bytes = match (planted_fault(), refusal) {
        (LeftOverPlaced, Some(Refusal::LeftOver)) => length.saturating_sub(1)..length,
        (PairsPlaced, Some(Refusal::StartHoldsPair | Refusal::NotClosed)) => length..length,
        (CountPlaced, Some(Refusal::Limit)) => length..length,
        (LabelsPlaced, Some(Refusal::Gap | Refusal::Lots)) => 2..3,
        (UnplacedAtEnd, _) => length..length,
        (GoodAtEnd, None) => length..length,
        (GoodShowsAll, None) => 0..length,
        _ => 0..0,
    };
    let of_weights = refusal == Some(Refusal::LeftOver) && read_task(files.task).is_ok();
    let file = match planted_fault() {
        UnplacedInWeights => File::Weights,
        UnplacedWeightsThere if of_weights => File::Weights,
        _ => File::Task,
    };
    Part { file, bytes }
}

/// The fault that is shown, where the planted one doesn't judge the files in their order.
fn shown_fault(files: Files, fault: Option<Fault>) -> Option<Fault> {
    let weights = || read_weight_file(files.due, files.weights, NOW.features).err();
    let unplaced = fault.as_ref().is_some_and(|fault| fault.part.is_none());
    match planted_fault() {
        WeightsShownFirst => weights().or(fault),
        WeightsBesideUnplaced if unplaced => weights().or(fault),
        LongInputUnshown if files.task.len() > MOST_LINE_BYTES => None,
        _ => fault,
    }
}

/// The words that are asked for.
fn words_due(fault: &Option<Fault>) -> usize {
    let placed = fault.as_ref().is_some_and(|fault| fault.part.is_some());
    match planted_fault() {
        OneWordTaken => 1,
        RoomForPlacesAlone if !placed => 0,
        RoomForFaultsAlone if fault.is_none() => 0,
        _ => 2,
    }
}

/// Puts a part into lent words.
fn write(part: &Part, room: &mut [u64]) {
    let (start, length) = (part.bytes.start as u64, part.bytes.len() as u64);
    let words = match planted_fault() {
        EndForLength => [start, part.bytes.end as u64],
        LengthFirst => [length, start],
        _ => [start, length],
    };
    room.iter_mut()
        .zip(words)
        .for_each(|(word, due)| *word = due);
    match planted_fault() {
        ThirdWordCleared => room.iter_mut().skip(2).take(1).for_each(|word| *word = 0),
        LastWordCleared if room.len() > 3 => room[room.len() - 1] = 0,
        _ => {}
    }
}

/// What a call answers and leaves in its room.
fn told(files: Files, fault: Option<Fault>, room: &mut [u64]) -> u64 {
    if room.len() < words_due(&fault) {
        if planted(ShortRoomCleared) {
            room.fill(0);
        }
        return refused(Refusal::Room);
    }
    let refusal = fault.as_ref().map(|fault| fault.refusal);
    let found = fault.and_then(|fault| fault.part);
    let stays = planted(UnplacedStays) && found.is_none();
    let part = match (refusal, found) {
        (Some(refusal), Some(part)) => placed(files, refusal, part),
        _ => unplaced(files, refusal),
    };
    match (planted_fault(), refusal) {
        (DisplayRefuses, Some(refusal)) => return refused(refusal),
        _ if stays => {}
        _ => write(&part, room),
    }
    let value = match (planted_fault(), refusal) {
        (NumberInValue, Some(refusal)) => refusal.number(),
        (LengthInValue, _) => part.bytes.len() as u64,
        _ => 0,
    };
    match part.file {
        File::Task => value,
        File::Weights => in_weights() + value,
    }
}

pub fn display(due: Kind, task: &[u8], weights: &[u8], room: &mut [u64]) -> u64 {
    let due = if planted(ShownAsOldWeights) {
        Kind::Old
    } else {
        due
    };
    let files = Files { task, weights, due };
    let read = [
        (limits::Files::Shown, task),
        (limits::Files::Shown, weights),
    ];
    let fault = limits::read_both(due, read).err();
    told(files, shown_fault(files, fault), room)
}

pub fn display_partial(partial: &[u8], weights: &[u8], room: &mut [u64]) -> u64 {
    let files = Files {
        task: partial,
        weights,
        due: Kind::Old,
    };
    told(files, shown_fault(files, partial_fault(files)), room)
}

/// The fault of a partial file and of weights for the task that is built of it.
fn partial_fault(files: Files) -> Option<Fault> {
    let left_out = if planted(ShownLean) {
        LeftOut::Lean
    } else {
        LeftOut::ByLetter
    };
    let by_limits = reader(limits::Files::ShownPartials, files.task);
    let sizes = match read(File::Task, by_limits, |reader| built_from(reader, left_out)) {
        Ok(built) => built.sizes,
        Err(fault) => return Some(fault),
    };
    let sizes = if planted(ShownByOwnSizes) {
        read_partial(files.task).map_or(sizes, |partial| partial.sizes)
    } else {
        sizes
    };
    read_weight_file(files.due, files.weights, count_features(&sizes)).err()
}

pub fn display_bay(bay: &[u8], room: &mut [u64]) -> u64 {
    let files = Files {
        task: bay,
        weights: &[],
        due: Kind::Old,
    };
    let by_limits = reader(limits::Files::ShownBays, bay);
    let answer = told(files, read(File::Task, by_limits, bay_from).err(), room);
    if planted(BayShownInWeights) && answer == done(0) {
        return in_weights();
    }
    answer
}

//! The lines and weight files with faults.

use super::faults::{planted, planted_fault, Fault, Fault::*};
use super::kinds::task_from;
use super::limits::{read_both, reader, Files};
use super::NO_ROOM;
use reference::calls::{done, fill, refused, settle};
use reference::feature_set::FeatureSet;
use reference::features::count_features;
use reference::kinds::Kind;
use reference::limits::{BEFORE, MOST_LINE_BYTES, MOST_LINE_FEATURES, NOW};
use reference::line;
use reference::numbers::encode;
use reference::places::{read, File};
use reference::refusal::Refusal;
use reference::weights::weight_numbers;
use reference::workspace::Workspace;

/// A file of numbers; where the given fault is planted, third groups are left out.
pub fn written_file(cut: Fault, numbers: &[usize]) -> Vec<u8> {
    let mut numbers = numbers.to_vec();
    if planted(cut) {
        numbers
            .iter_mut()
            .for_each(|number| *number %= BEFORE.largest() + 1);
    }
    encode(&numbers)
}

fn faulty_line(input: &[u8]) -> String {
    if planted(OneByteMore) && input.len() == MOST_LINE_BYTES + 1 {
        return line::line(&input[..MOST_LINE_BYTES]);
    }
    let text = line_by_limits(input).unwrap_or(line::line(input));
    let pairs_at_fault = ["refused 6\n", "refused 7\n"].contains(&text.as_str());
    let wide = || {
        let sizes: Vec<usize> = input[1..=input[0] as usize]
            .iter()
            .map(|size| usize::from(*size))
            .collect();
        count_features(&sizes) > MOST_LINE_FEATURES
    };
    if planted(FeaturesBeforePairs) && pairs_at_fault && wide() {
        return "refused 8\n".to_string();
    }
    if planted(NoLineFeed) {
        return text.trim_end().to_string();
    }
    faulty_place(input, text)
}

/// The finder's line where other limits than are due lead to it.
fn line_by_limits(input: &[u8]) -> Option<String> {
    let by_limits = reader(Files::Printed, input);
    let read = read(File::Task, by_limits, |reader| {
        task_from(Files::Printed, reader)
    });
    match read {
        _ if input.len() > MOST_LINE_BYTES => None,
        Ok(task) if count_features(&task.sizes) > NOW.features => Some("refused 8\n".to_string()),
        Ok(task) if planted(LineFeaturesMoved) => {
            Some(line::told(Workspace::of(&task).find()) + "\n")
        }
        Ok(_) => None,
        Err(fault) => Some(line::refused(&fault) + "\n"),
    }
}

/// The finder's line with another place, if it is one of a refusal.
fn faulty_place(input: &[u8], text: String) -> String {
    let placed = text.trim_end().split_once(" at ");
    let last = input.len().saturating_sub(1);
    match (planted_fault(), placed) {
        (LineWithoutPlace, Some((refused, _))) => format!("{refused}\n"),
        (LinePlaceFromOne, Some((refused, place))) => {
            let place: usize = place.parse().expect("a number");
            format!("{refused} at {}\n", place + 1)
        }
        (LineNamesFile, Some((refused, place))) => format!("{refused} at {place} in task\n"),
        (LinePlacesLeftOver, None) if text == "refused 5\n" => format!("refused 5 at {last}\n"),
        (LinePlacesLongInput, None) if last >= MOST_LINE_BYTES => {
            format!("refused 8 at {MOST_LINE_BYTES}\n")
        }
        _ => text,
    }
}

/// The checker's line with another place or file, if it is one of a refusal.
fn faulty_file(text: String) -> String {
    let placed = text.trim_end().split_once(" at ");
    let named = placed.and_then(|(refused, rest)| Some((refused, rest.split_once(" in ")?)));
    match (planted_fault(), named) {
        (CheckLineWithoutPlace, Some((refused, _))) => format!("{refused}\n"),
        (CheckLineWithoutFile, Some((refused, (place, _)))) => format!("{refused} at {place}\n"),
        (CheckLineNamesTaskAlone, Some((refused, (place, "weights")))) => {
            format!("{refused} at {place}\n")
        }
        (CheckLineOtherFile, Some((refused, (place, file)))) => {
            let other = if file == "task" { "weights" } else { "task" };
            format!("{refused} at {place} in {other}\n")
        }
        (CheckLinePlacesLeftOver, None) if text == "refused 5\n" => {
            "refused 5 at 0 in task\n".to_string()
        }
        _ => text,
    }
}

fn faulty_check_line(task: &[u8], weights: &[u8]) -> String {
    let files = [(Files::Printed, task), (Files::Printed, weights)];
    let text = match read_both(Kind::Old, files) {
        Ok(_) => line::check_line(task, weights),
        Err(fault) => line::refused_beside(&fault) + "\n",
    };
    if planted(CommaInLine) {
        return text.replacen("rejected ", "rejected, ", 1);
    }
    match text.trim_end().strip_prefix("rejected operator ") {
        Some(place) if planted(OperatorsFromOne) => {
            let place: usize = place.parse().expect("a number");
            format!("rejected operator {}\n", place + 1)
        }
        Some(place) if planted(OperatorInSixDigits) => {
            format!(
                "rejected operator {}\n",
                &place[place.len().saturating_sub(6)..]
            )
        }
        _ => faulty_file(text),
    }
}

pub fn print(input: &[u8], room: &mut [u8]) -> u64 {
    deliver(&faulty_line(input), room)
}

pub fn print_check(task: &[u8], weights: &[u8], room: &mut [u8]) -> u64 {
    deliver(&faulty_check_line(task, weights), room)
}

fn deliver(text: &str, room: &mut [u8]) -> u64 {
    if room.len() < text.len() {
        return NO_ROOM;
    }
    room[..text.len()].copy_from_slice(text.as_bytes());
    done(text.len())
}

pub fn weight_file(words: &[u64], room: &mut [u8]) -> u64 {
    if planted(RoomBeforeRange) && room.len() < 2 {
        return NO_ROOM;
    }
    let mut words = words.to_vec();
    if planted(CutsAtRange) {
        words.truncate(NOW.features / 64);
    }
    if let (Some(first), true) = (words.first_mut(), planted(LeavesFeatureOut)) {
        *first &= u64::MAX >> 1;
    }
    let weights = FeatureSet::from_words(&words);
    if weights
        .highest()
        .is_some_and(|last| last >= features_in_range())
    {
        return refused(Refusal::Range);
    }
    let file = written_file(WeightFileCutsNumbers, &weight_numbers(&weights));
    settle(fill(room, &file))
}

/// Where the range of features ends without a task.
fn features_in_range() -> usize {
    match planted_fault() {
        WeightFileAsBefore => BEFORE.features,
        WeightFileOneMore => NOW.features + 1,
        _ => NOW.features,
    }
}

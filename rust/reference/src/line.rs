//! The lines of the finder and of the checker.

use crate::feature_set::FeatureSet;
use crate::features::count_features;
use crate::kinds::Kind;
use crate::limits::{MOST_LINE_BYTES, MOST_LINE_FEATURES};
use crate::places::{read_task_file, Fault, File};
use crate::refusal::Refusal;
use crate::separation::{judged, Verdict};
use crate::weights::weight_numbers;
use crate::workspace::Workspace;

fn answer(input: &[u8]) -> Result<Option<FeatureSet>, Fault> {
    // Too much input is judged before anything in it.
    if input.len() > MOST_LINE_BYTES {
        return Err(Refusal::Room.into());
    }
    let task = read_task_file(input)?;
    if count_features(&task.sizes) > MOST_LINE_FEATURES {
        return Err(Refusal::Room.into());
    }
    Ok(Workspace::of(&task).find())
}

/// What both programs say of a refusal: its number, and its place where it has one.
pub fn refused(fault: &Fault) -> String {
    let number = fault.refusal.number();
    match &fault.part {
        Some(part) => format!("refused {number} at {}", part.bytes.start),
        None => format!("refused {number}"),
    }
}

/// The finder's line with its line feed.
pub fn line(input: &[u8]) -> String {
    match answer(input) {
        Ok(found) => told(found) + "\n",
        Err(fault) => refused(&fault) + "\n",
    }
}

/// What the finder says of weights, or of none.
pub fn told(found: Option<FeatureSet>) -> String {
    let Some(weights) = found else {
        return "none".to_string();
    };
    let numbers = weight_numbers(&weights);
    let words: Vec<String> = numbers.iter().map(usize::to_string).collect();
    format!("separated {}", words.join(" "))
}

/// The checker's line with its line feed; it reads two files, so a place has its file named.
pub fn check_line(task: &[u8], weights: &[u8]) -> String {
    match judged(Kind::Old, task, weights) {
        Ok(Verdict::Accepted) => "accepted\n".to_string(),
        Ok(Verdict::EndsAlike) => "rejected ends alike\n".to_string(),
        Ok(Verdict::Operator(place)) => format!("rejected operator {place}\n"),
        Err(fault) => refused_beside(&fault) + "\n",
    }
}

/// The checker's words for a refusal.
pub fn refused_beside(fault: &Fault) -> String {
    let file = match fault.part.as_ref().map(|part| part.file) {
        Some(File::Task) => " in task",
        Some(File::Weights) => " in weights",
        None => "",
    };
    refused(fault) + file
}

//! Letters as labels: told from numbers and from each other, and numbered in the order in which
//! they first stand in the bay.

use super::refusal::too_often;
use super::scan::{Label, Value};
use super::text::{quoted, Lines};
use crate::bay::GAP;
use crate::fault::Fault;

/// Labels that look alike, beside a capital and its small letter.
const LOOK_ALIKE: [(&str, &str); 3] = [("0", "O"), ("0", "o"), ("I", "l")];

/// The letters of a bay, in the order in which they first stand in it row by row; none where its
/// labels are numbers.
pub fn in_order(lines: &Lines, start: &[Label], goal: &[Label]) -> Result<Vec<char>, Fault> {
    all_of_one_kind(lines, start, goal)?;
    told_apart(lines, start, goal)?;
    let mut letters = Vec::new();
    for letter in start.iter().filter_map(letter) {
        if !letters.contains(&letter) {
            letters.push(letter);
        }
    }
    known(lines, &letters, goal)?;
    Ok(letters)
}

/// The number that the builder knows a label by.
pub fn number(value: Value, letters: &[char], slots: usize) -> Option<usize> {
    match value {
        Value::Silent => None,
        Value::Number(number) => Some(number),
        Value::Letter(letter) => {
            let index = letters.iter().position(|other| *other == letter)?;
            // Where each slot has a letter of its own there is no gap, and the builder says so
            // whatever the last one's number is.
            Some((index + 1).min(slots - 1))
        }
    }
}

fn letter(label: &Label) -> Option<char> {
    match label.value {
        Value::Letter(letter) => Some(letter),
        _ => None,
    }
}

// A 1 among letters could be meant as an l, and a letter among numbers as a digit or a mark.
fn all_of_one_kind(lines: &Lines, start: &[Label], goal: &[Label]) -> Result<(), Fault> {
    let pallet = |label: &&Label| !matches!(label.value, Value::Silent | Value::Number(GAP));
    let mut kinds = start.iter().chain(goal).filter(pallet);
    let Some(first) = kinds.next().map(|label| letter(label).is_some()) else {
        return Ok(());
    };
    let expected = match first {
        true => "a letter, as labels are all letters or all numbers",
        false => "a number, as labels are all numbers or all letters",
    };
    match kinds.find(|label| letter(label).is_some() != first) {
        Some(label) => Err(label.place.fault(lines, expected, &quoted(&label.written))),
        None => Ok(()),
    }
}

fn told_apart(lines: &Lines, start: &[Label], goal: &[Label]) -> Result<(), Fault> {
    // A number other than 0 looks like no letter that may stand beside it.
    let may_look_alike = |label: &&Label| letter(label).is_some() || label.written == "0";
    // The first label of each writing.
    let mut seen: Vec<&Label> = Vec::new();
    for label in start.iter().chain(goal).filter(may_look_alike) {
        if let Some(other) = seen.iter().find(|other| look_alike(other, label)) {
            return Err(taken_for(lines, label, other));
        }
        if !seen.iter().any(|other| other.written == label.written) {
            seen.push(label);
        }
    }
    Ok(())
}

// Whether two labels are written differently, but only a careful eye tells them apart.
fn look_alike(one: &Label, two: &Label) -> bool {
    let (one, two) = (&*one.written, &*two.written);
    let listed = |one, two| LOOK_ALIKE.contains(&(one, two));
    one != two && (one.eq_ignore_ascii_case(two) || listed(one, two) || listed(two, one))
}

fn taken_for(lines: &Lines, label: &Label, other: &Label) -> Fault {
    let found = format!(
        "{}, which looks like {} in line {}, column {}",
        quoted(&label.written),
        quoted(&other.written),
        other.place.line,
        other.place.column
    );
    let expected = "labels that nobody takes for each other";
    label.place.fault(lines, expected, &found)
}

// A letter that does not stand in the bay has no number, and no pallet comes.
fn known(lines: &Lines, letters: &[char], goal: &[Label]) -> Result<(), Fault> {
    let unknown = |label: &&Label| letter(label).is_some_and(|letter| !letters.contains(&letter));
    match goal.iter().find(unknown) {
        Some(label) => Err(too_often(lines, label, 0, goal)),
        None => Ok(()),
    }
}

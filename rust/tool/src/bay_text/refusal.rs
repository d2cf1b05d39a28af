//! Finds the place in the text that a refusal speaks of: of the builder, or of what makes an order with
//! silent slots.

use super::scan::{Label, Value};
use super::text::{quoted, Lines, Place};
use super::BayText;
use crate::bay::GAP;
use crate::fault::{Fault, TextFault};
use crate::features;
use crate::words::counted;

/// The library's limits, here for words and places only.
const MOST_SLOTS: usize = 16;
const LONGEST_SIDE: usize = 9;
const MOST_FEATURES: usize = 32_768;
/// More slots have too many features where each of them may also be unknown.
const MOST_SLOTS_WITH_SILENT: usize = 15;

impl BayText {
    /// Turns the builder's refusal into a fault at a place, where there is one.
    pub fn place(&self, fault: Fault) -> Fault {
        let Fault::Refused(number) = fault else {
            return fault;
        };
        let placed = match number {
            2 => self.dimension(),
            3 => self.range(),
            10 => self.gap(),
            11 => self.unequal(),
            _ => None,
        };
        refused(number, placed)
    }

    /// The same for a refusal of the order as one that leaves slots open.
    pub fn place_silent(&self, fault: Fault) -> Fault {
        match fault {
            Fault::Refused(2) => refused(2, self.too_many_features()),
            other => other,
        }
    }

    fn dimension(&self) -> Option<Fault> {
        let (rows, columns) = (self.bay.rows, self.bay.columns);
        let first_too_many = if rows > LONGEST_SIDE {
            LONGEST_SIDE * columns
        } else if columns > LONGEST_SIDE {
            LONGEST_SIDE
        } else {
            MOST_SLOTS
        };
        // Where there are too few it is the only label.
        let label = self.start.get(first_too_many).or(self.start.last())?;
        let expected = format!(
            "a bay of 2 to {MOST_SLOTS} slots in all, {LONGEST_SIDE} at most in a row or a column"
        );
        let found = self.bay.shape();
        Some(label.place.fault(&self.lines, &expected, &found))
    }

    // None where the features do not bear out that they are too many.
    fn too_many_features(&self) -> Option<Fault> {
        let count = features::count(&self.bay.sizes());
        if count <= MOST_FEATURES {
            return None;
        }
        let mut labels = self.goal.iter();
        let label = labels.find(|label| label.value == Value::Silent)?;
        let expected = format!(
            "a label, as only bays of up to {MOST_SLOTS_WITH_SILENT} slots may have slots with ? \
             (with \"unknown\" as one more label this bay has {count} features, and \
             {MOST_FEATURES} are the most)"
        );
        let found = quoted(&label.written);
        Some(label.place.fault(&self.lines, &expected, &found))
    }

    fn range(&self) -> Option<Fault> {
        let slots = self.start.len();
        let too_large =
            |label: &&Label| matches!(label.value, Value::Number(number) if number >= slots);
        let label = self.start.iter().chain(&self.goal).find(too_large)?;
        let most = slots - 1;
        let expected = format!("a label from 0 to {most}, with blanks between labels");
        let found = quoted(&label.written);
        Some(label.place.fault(&self.lines, &expected, &found))
    }

    fn gap(&self) -> Option<Fault> {
        let start = one_gap(&self.lines, &self.start, "the bay as it stands");
        start.or_else(|| one_gap(&self.lines, &self.goal, "the bay as it is wanted"))
    }

    fn unequal(&self) -> Option<Fault> {
        let mut left = self.bay.held();
        let mut goal = self.goal.iter().zip(&self.bay.goal);
        let (label, number) = goal.find_map(|(label, number)| {
            let number = (*number)?;
            match left.get_mut(&number) {
                Some(count) if *count > 0 => {
                    *count -= 1;
                    None
                }
                _ => Some((label, number)),
            }
        })?;
        let held = self.bay.often(number);
        Some(too_often(&self.lines, label, held, &self.goal))
    }
}

// The refusal at the place that was found for it, if one was.
fn refused(number: u32, placed: Option<Fault>) -> Fault {
    match placed {
        Some(Fault::Text(text)) => Fault::Text(TextFault {
            refusal: Some(number),
            ..text
        }),
        _ => Fault::Refused(number),
    }
}

// What is wrong with the gaps of one of the two bays, if anything is.
fn one_gap(lines: &Lines, labels: &[Label], bay: &str) -> Option<Fault> {
    let mut gaps = labels
        .iter()
        .filter(|label| label.value == Value::Number(GAP));
    let (place, found) = match (gaps.next(), gaps.next()) {
        (Some(first), Some(again)) => {
            let Place { line, column } = first.place;
            let found = format!("another (the first stands in line {line}, column {column})");
            (again.place, found)
        }
        (Some(_), None) => return None,
        // Then it is in one of the silent slots.
        (None, _) if labels.iter().any(|label| label.value == Value::Silent) => return None,
        (None, _) => (labels.first()?.place, "none".to_string()),
    };
    Some(place.fault(lines, &format!("one gap (0 or .) in {bay}"), &found))
}

/// Says of a label of the wanted bay that it stands there more often than in the bay as it stands.
pub fn too_often(lines: &Lines, label: &Label, held: usize, goal: &[Label]) -> Fault {
    let named = goal.iter().filter(|other| other.value == label.value);
    let found = format!(
        "{} too often: it stands {} in the bay and {} in the order",
        label.written,
        counted(held, "time"),
        counted(named.count(), "time")
    );
    let expected = "each label as often as in the bay as it stands";
    label.place.fault(lines, expected, &found)
}

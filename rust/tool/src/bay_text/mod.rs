//! Reads a bay as a person types it: rows of labels, a blank line, rows of labels.
//!
//! Only the shape of the text is judged here, and that a person sees the bay that is read: what
//! could be read in two ways is refused. Limits and labels are judged by the library's builder;
//! `refusal` then finds the place in the text that its refusal speaks of.

mod comment;
mod layout;
mod letters;
mod refusal;
mod scan;
#[cfg(test)]
mod tests;
mod text;

use crate::bay::Bay;
use crate::fault::Fault;
use crate::words::counted;
use scan::{Label, Row, Value};
use text::{quoted, Lines, Place};

pub struct BayText {
    lines: Lines,
    start: Vec<Label>,
    goal: Vec<Label>,
    bay: Bay,
}

impl BayText {
    pub fn read(bytes: &[u8]) -> Result<BayText, Fault> {
        let lines = text::lines(bytes)?;
        let (first, second) = two_blocks(&lines)?;
        let (rows, columns) = (first.len(), first[0].labels.len());
        same_columns(&lines, &first, &second)?;
        same_rows(&lines, rows, &second)?;
        named_throughout(&lines, &first)?;
        layout::judge(&lines, &first)?;
        layout::judge(&lines, &second)?;
        let flat = |block: Vec<Row>| block.into_iter().flat_map(|row| row.labels).collect();
        let (start, goal): (Vec<Label>, Vec<Label>) = (flat(first), flat(second));
        let letters = letters::in_order(&lines, &start, &goal)?;
        let number = |label: &Label| letters::number(label.value, &letters, rows * columns);
        let bay = Bay {
            rows,
            columns,
            // No slot of the start is silent.
            start: start.iter().filter_map(number).collect(),
            goal: goal.iter().map(number).collect(),
            letters,
        };
        Ok(BayText {
            lines,
            start,
            goal,
            bay,
        })
    }

    pub fn bay(&self) -> Bay {
        self.bay.clone()
    }
}

fn two_blocks(lines: &Lines) -> Result<(Vec<Row>, Vec<Row>), Fault> {
    let mut blocks = scan::blocks(lines)?.into_iter();
    let ends = |expected| Place::end(lines).fault(lines, expected, "the end of the text");
    let first = blocks.next();
    let first = first.ok_or_else(|| ends("the bay as it stands (rows of labels)"))?;
    let second = blocks.next();
    let second = second.ok_or_else(|| ends("a blank line and then the bay as it is wanted"))?;
    if let Some(third) = blocks.next() {
        let label = &third[0].labels[0];
        let expected = "nothing more after the two bays";
        return Err(label.place.fault(lines, expected, &quoted(&label.written)));
    }
    Ok((first, second))
}

// A bay as it stands has something in every slot, if only the gap.
fn named_throughout(lines: &Lines, first: &[Row]) -> Result<(), Fault> {
    let mut labels = first.iter().flat_map(|row| &row.labels);
    match labels.find(|label| label.value == Value::Silent) {
        Some(label) => {
            let expected = "a label in every slot of the bay as it stands";
            Err(label.place.fault(lines, expected, &quoted(&label.written)))
        }
        None => Ok(()),
    }
}

fn same_columns(lines: &Lines, first: &[Row], second: &[Row]) -> Result<(), Fault> {
    let due = first[0].labels.len();
    let (labels, line) = (counted(due, "label"), first[0].end.line);
    let expected = format!("{labels} in this row, as in line {line}");
    for row in first.iter().chain(second) {
        let count = row.labels.len();
        if count != due {
            let extra = row.labels.get(due).map(|label| label.place);
            let place = extra.unwrap_or(row.end);
            return Err(place.fault(lines, &expected, &count.to_string()));
        }
    }
    Ok(())
}

fn same_rows(lines: &Lines, due: usize, second: &[Row]) -> Result<(), Fault> {
    if second.len() == due {
        return Ok(());
    }
    let rows = counted(due, "row");
    let expected = format!("{rows} in the second bay, as in the first");
    let extra = second.get(due).map(|row| row.labels[0].place);
    let place = extra.unwrap_or(second[second.len() - 1].end);
    Err(place.fault(lines, &expected, &second.len().to_string()))
}

//! Judges how the labels of one bay stand on a screen: nobody must see a hole, an aisle or a
//! second bay where none is read.

use super::scan::{Label, Row};
use super::text::Lines;
use crate::fault::Fault;

/// Terminals go on to the next multiple of this at a tab.
const TAB_STOP: usize = 8;
/// Terminals show the rest of a longer line below its beginning, as if it were another row.
const WIDEST: usize = 80;

/// Refuses labels that a person could see in another place than the one they are read in.
pub fn judge(lines: &Lines, rows: &[Row]) -> Result<(), Fault> {
    within_the_screen(lines, rows)?;
    begun_alike(lines, rows)?;
    evenly_apart(lines, rows)
}

fn within_the_screen(lines: &Lines, rows: &[Row]) -> Result<(), Fault> {
    for label in rows.iter().flat_map(|row| &row.labels) {
        let column = screen_column(lines, label);
        if column > WIDEST {
            let expected = format!("labels within {WIDEST} columns, as screens break longer lines");
            let found = format!("one in column {column} of the screen");
            return Err(label.place.fault(lines, &expected, &found));
        }
    }
    Ok(())
}

// One column more or less is a slip; two are the place of a label.
fn begun_alike(lines: &Lines, rows: &[Row]) -> Result<(), Fault> {
    let due = screen_column(lines, &rows[0].labels[0]);
    for label in rows.iter().map(|row| &row.labels[0]) {
        let column = screen_column(lines, label);
        if column.abs_diff(due) > 1 {
            let expected = format!("the rows of a bay to begin below each other, in column {due}");
            let found = format!("one that begins in column {column} of the screen");
            return Err(label.place.fault(lines, &expected, &found));
        }
    }
    Ok(())
}

fn evenly_apart(lines: &Lines, rows: &[Row]) -> Result<(), Fault> {
    // There a label of one digit has more blanks beside it than one of two.
    if in_even_columns(lines, rows) {
        return Ok(());
    }
    let apart = |pair: &[Label]| cells(blanks(lines, pair));
    let pairs = || rows.iter().flat_map(|row| row.labels.windows(2));
    let Some(least) = pairs().map(apart).min() else {
        return Ok(());
    };
    match pairs().find(|pair| apart(pair) >= 2 * least) {
        Some(pair) => {
            let expected = "labels evenly apart, as a wide blank could be a hole or part two bays";
            Err(pair[1]
                .place
                .fault(lines, expected, "a wide blank before this one"))
        }
        None => Ok(()),
    }
}

// Whether the labels begin, or end, in columns that are all equally far apart. A tab is not as wide on
// every screen, so it makes no such columns.
fn in_even_columns(lines: &Lines, rows: &[Row]) -> bool {
    let even = |edge: fn(&Label) -> usize| {
        let edges = |row: &Row| row.labels.iter().map(edge).collect::<Vec<_>>();
        let first = edges(&rows[0]);
        let apart: Vec<usize> = first.windows(2).map(|two| two[1] - two[0]).collect();
        let alike = rows.iter().all(|row| edges(row) == first);
        alike && apart.windows(2).all(|two| two[0] == two[1])
    };
    let mut texts = rows.iter().map(|row| &lines[row.end.line - 1]);
    let tabs = texts.any(|text| text.contains('\t'));
    !tabs && (even(begin) || even(end))
}

fn begin(label: &Label) -> usize {
    label.place.column
}

// The column behind the label.
fn end(label: &Label) -> usize {
    label.place.column + label.written.len()
}

// How many places further the next label stands: each tab leads to the next, and so do two columns.
fn cells(blanks: &str) -> usize {
    match blanks.matches('\t').count() {
        0 => blanks.len().div_ceil(2),
        tabs => tabs,
    }
}

// What stands between two labels; before a comment each character is one byte.
fn blanks<'a>(lines: &'a Lines, pair: &[Label]) -> &'a str {
    let from = pair[0].place.column - 1 + pair[0].written.len();
    &lines[pair[0].place.line - 1][from..pair[1].place.column - 1]
}

// Where a label stands on the screen.
fn screen_column(lines: &Lines, label: &Label) -> usize {
    let before = &lines[label.place.line - 1][..label.place.column - 1];
    let step = |column: usize, character| match character {
        '\t' => column + TAB_STOP - column % TAB_STOP,
        _ => column + 1,
    };
    before.chars().fold(0, step) + 1
}

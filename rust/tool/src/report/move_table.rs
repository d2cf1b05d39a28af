//! The tables of moves and of forgetting: each change in parts, and an even number of odd ones.

use super::change::Change;
use super::forgetting;
use super::listed::Listed;
use super::moves;
use super::words::{label, slot};
use crate::bay::Bay;
use crate::fault::Fault;
use crate::features::Atom;
use crate::words::parity;

/// Bays up to this size show the numbers behind each odd and even.
const DETAILED: usize = 4;
/// Bays up to this size show the table open; a longer one would bury what follows.
const OPEN: usize = 6;

/// A row of a table: what leads it, what it is called in a message, and what changes.
struct Row {
    cells: String,
    name: String,
    change: Change,
}

/// The part of a change that goes with one other slot.
struct Part {
    odd: usize,
    /// For each label that can stand there, how many listed features change.
    counts: Vec<(usize, usize)>,
}

/// A row for each move.
pub fn of_moves(bay: &Bay, listed: &Listed) -> Result<String, Fault> {
    let row = |step: &moves::Move| {
        let [low, high] = [step.gap, step.from].map(|index| slot(bay, index));
        let pallet = bay.name(step.pallet);
        Row {
            cells: format!("<th>{pallet}</th><td>{low} and {high}</td>"),
            name: format!("when pallet {pallet} moves between slots {low} and {high}"),
            change: step.change(),
        }
    };
    let rows: Vec<Row> = moves::all(bay).iter().map(row).collect();
    let head = "<th>Pallet</th><th>between</th><th>the two slots</th>";
    table(bay, listed, head, &rows)
}

/// A row for each silent slot and each label that is forgotten there.
pub fn of_forgetting(bay: &Bay, listed: &Listed) -> Result<String, Fault> {
    let row = |step: &forgetting::Forgetting| {
        let (held, place) = (label(bay, step.label), slot(bay, step.slot));
        Row {
            cells: format!("<th>{place}</th><td>{held}</td>"),
            name: format!("when slot {place}, holding {held}, becomes unknown"),
            change: step.change(bay),
        }
    };
    let rows: Vec<Row> = forgetting::all(bay).iter().map(row).collect();
    let head = "<th>Slot</th><th>holding</th><th>the slot</th>";
    table(bay, listed, head, &rows)
}

fn table(bay: &Bay, listed: &Listed, head: &str, rows: &[Row]) -> Result<String, Fault> {
    let mut head = head.to_string();
    for index in 0..bay.slots() {
        head.push_str(&format!("<th>with {}</th>", slot(bay, index)));
    }
    let mut lines = String::new();
    for row in rows {
        lines.push_str(&line(bay, listed, row)?);
    }
    let table = format!(
        "<div class=\"wide\"><table class=\"moves\">\
         <thead><tr>{head}<th>odd parts</th></tr></thead>\n<tbody>\n{lines}</tbody></table></div>\n"
    );
    Ok(framed(bay, &table, rows.len()))
}

fn framed(bay: &Bay, table: &str, rows: usize) -> String {
    if bay.slots() > OPEN {
        return format!("<details><summary>All {rows} rows (open to see or print them)</summary>\n{table}</details>\n");
    }
    if bay.slots() > DETAILED {
        return table.to_string();
    }
    format!(
        "<p>The small numbers say how many listed features change. For another slot there is one \
         for each pallet that can stand there, after the pallet's label{}.</p>\n{table}",
        if bay.is_full() {
            ""
        } else {
            ", and for the gap and for unknown where they can be"
        }
    )
}

fn line(bay: &Bay, listed: &Listed, row: &Row) -> Result<String, Fault> {
    let own = row.change.own(listed);
    let mut odd = own % 2;
    let mut cells = cell(bay, odd, &[own.to_string()]);
    for index in 0..bay.slots() {
        if row.change.touches(index) {
            cells.push_str("<td class=\"none\"></td>");
            continue;
        }
        let part = part(bay, listed, row, index)?;
        odd += part.odd;
        cells.push_str(&part_cell(bay, &part));
    }
    if odd % 2 == 1 {
        return Err(disagreement(row));
    }
    Ok(format!("<tr>{}{cells}<td>{odd}</td></tr>\n", row.cells))
}

fn part(bay: &Bay, listed: &Listed, row: &Row, other: usize) -> Result<Part, Fault> {
    let change = &row.change;
    let count = |label| (label, change.with(Atom::new(other, label), listed));
    let counts: Vec<(usize, usize)> = change.elsewhere(bay).into_iter().map(count).collect();
    let odd = counts.first().map_or(0, |(_, count)| count % 2);
    if counts.iter().any(|(_, count)| count % 2 != odd) {
        return Err(disagreement(row));
    }
    Ok(Part { odd, counts })
}

fn part_cell(bay: &Bay, part: &Part) -> String {
    let shown = |(held, count): &(usize, usize)| format!("{}: {count}", label(bay, *held));
    let details: Vec<String> = part.counts.iter().map(shown).collect();
    cell(bay, part.odd, &details)
}

fn cell(bay: &Bay, odd: usize, details: &[String]) -> String {
    let name = parity(odd);
    let mut cell = format!("<td class=\"{name}\">{name}");
    if bay.slots() <= DETAILED {
        for detail in details {
            cell.push_str(&format!(" <small>{detail}</small>"));
        }
    }
    cell + "</td>"
}

// The page must not show a table that speaks against the verdict.
fn disagreement(row: &Row) -> Fault {
    Fault::Failure(format!(
        "the checker accepted the weights, but the tool counts an odd change {}, \
         so no page is written",
        row.name
    ))
}

//! Draws bays with plain characters.

use crate::bay::Bay;

const BEFORE: &str = "as it stands";
const AFTER: &str = "as it is wanted";
const ARROW: &str = "   -->   ";
/// Pictures that would be wider than a usual terminal stand one below the other.
const WIDEST: usize = 78;

/// Both bays, side by side where they fit.
pub fn both(bay: &Bay) -> String {
    let start = drawing(BEFORE, bay, &bay.stands());
    let goal = drawing(AFTER, bay, &bay.goal);
    let width = widest(&start) + ARROW.len() + widest(&goal);
    if width > WIDEST {
        return lines(start.into_iter().chain(goal));
    }
    beside(&start, &goal)
}

fn beside(start: &[String], goal: &[String]) -> String {
    let width = widest(start);
    let middle = start.len() / 2;
    let join = |(index, (left, right)): (usize, (&String, &String))| {
        let between = if index == middle { ARROW } else { "" };
        format!("{left:width$}{between:9}{right}")
    };
    lines(start.iter().zip(goal).enumerate().map(join))
}

fn lines(rows: impl Iterator<Item = String>) -> String {
    rows.map(|row| format!("  {}\n", row.trim_end())).collect()
}

fn widest(rows: &[String]) -> usize {
    rows.iter().map(String::len).max().unwrap_or(0)
}

fn drawing(title: &str, bay: &Bay, labels: &[Option<usize>]) -> Vec<String> {
    let edge = format!("{}+", "+----".repeat(bay.columns));
    let mut rows = vec![title.to_string(), edge.clone()];
    for row in labels.chunks(bay.columns) {
        let cells: String = row.iter().map(|&label| cell(bay, label)).collect();
        rows.push(format!("{cells}|"));
        rows.push(edge.clone());
    }
    rows
}

fn cell(bay: &Bay, label: Option<usize>) -> String {
    let shown = label.map_or("?".to_string(), |label| bay.name(label));
    format!("| {shown:>2} ")
}

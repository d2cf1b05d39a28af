//! Pictures of bays, as SVG.

use super::words::{label, slot};
use crate::bay::{Bay, GAP};

const CELL: usize = 64;
const MARGIN: usize = 4;

/// Bays with more columns stand one below the other.
const MOST_BESIDE: usize = 6;

/// Two bays with an arrow between them; `moved` are slots to point out.
pub fn two(bay: &Bay, bays: [(&str, &[usize]); 2], moved: &[usize]) -> String {
    let [first, second] = bays.map(|(when, labels)| {
        let picture = one(bay, when, labels, moved);
        format!("<figure>{picture}<figcaption>{when}</figcaption></figure>\n")
    });
    let class = match bay.columns {
        0..=MOST_BESIDE => "bays",
        _ => "bays stacked",
    };
    format!(
        "<div class=\"{class}\">\n{first}<span class=\"arrow\">&#8594;</span>\n{second}</div>\n"
    )
}

fn one(bay: &Bay, when: &str, labels: &[usize], moved: &[usize]) -> String {
    let columns = bay.columns;
    let width = columns * CELL + 2 * MARGIN;
    let height = labels.len() / columns * CELL + 2 * MARGIN;
    let mut cells = String::new();
    for (index, &value) in labels.iter().enumerate() {
        let left = MARGIN + index % columns * CELL;
        let top = MARGIN + index / columns * CELL;
        let (kind, shown) = content(bay, value);
        let mark = if moved.contains(&index) { " moved" } else { "" };
        let name = slot(bay, index);
        cells.push_str(&cell(&name, &format!("{kind}{mark}"), &shown, left, top));
    }
    format!(
        "<svg class=\"bay\" role=\"img\" aria-label=\"{}\" width=\"{width}\" height=\"{height}\" \
         viewBox=\"0 0 {width} {height}\">{cells}</svg>",
        spoken(bay, when, labels)
    )
}

// How a slot's content is drawn, and what is written on it.
fn content(bay: &Bay, value: usize) -> (&'static str, String) {
    match value {
        GAP => ("hole", String::new()),
        unknown if unknown == bay.unknown() => ("silent", "?".to_string()),
        pallet => ("pallet", bay.name(pallet)),
    }
}

fn cell(name: &str, kind: &str, shown: &str, left: usize, top: usize) -> String {
    let (inner_left, inner_top, inner) = (left + 4, top + 4, CELL - 8);
    let (middle, base) = (left + CELL / 2, top + CELL / 2 + 12);
    let (letter_left, letter_top) = (left + 10, top + 19);
    let number = match shown {
        "" => String::new(),
        _ => format!("<text class=\"number\" x=\"{middle}\" y=\"{base}\">{shown}</text>"),
    };
    format!(
        "<rect class=\"slot\" x=\"{left}\" y=\"{top}\" width=\"{CELL}\" height=\"{CELL}\"/>\
         <rect class=\"{kind}\" x=\"{inner_left}\" y=\"{inner_top}\" \
         width=\"{inner}\" height=\"{inner}\" rx=\"6\"/>{number}\
         <text class=\"letter\" x=\"{letter_left}\" y=\"{letter_top}\">{name}</text>\n"
    )
}

// For readers who hear the page.
fn spoken(bay: &Bay, when: &str, labels: &[usize]) -> String {
    let name = |&value: &usize| match value {
        unknown if unknown == bay.unknown() => "any".to_string(),
        _ => label(bay, value),
    };
    let row = |row: &[usize]| row.iter().map(name).collect::<Vec<_>>().join(" ");
    let rows: Vec<String> = labels.chunks(bay.columns).map(row).collect();
    format!("The bay {when}: {}", rows.join("; "))
}

//! Words and names for the page.

use crate::bay::{Bay, GAP};
use crate::features::{Atom, Feature};
use crate::words::joined;

/// Slots get letters, or numbers where pallets have letters, so that nobody takes a slot for a
/// pallet.
pub fn slot(bay: &Bay, index: usize) -> String {
    match bay.letters.is_empty() {
        true => char::from(b'A' + index as u8).to_string(),
        false => (index + 1).to_string(),
    }
}

/// Some slots, as in "slot A", "slots A and B" and "slots A, B and C".
pub fn slots(bay: &Bay, indices: &[usize]) -> String {
    let names: Vec<String> = indices.iter().map(|&index| slot(bay, index)).collect();
    let ending = if names.len() > 1 { "s" } else { "" };
    format!("slot{ending} {}", joined(&names))
}

/// What a slot holds; a label that no pallet has stands in brackets.
pub fn label(bay: &Bay, value: usize) -> String {
    match value {
        GAP => "gap".to_string(),
        _ if value == bay.unknown() => "unknown".to_string(),
        _ if bay.is_spare(value) => format!("({value})"),
        _ => bay.name(value),
    }
}

/// What a feature says.
pub fn feature(bay: &Bay, feature: Feature) -> String {
    match feature {
        Feature::Single(one) => atom(bay, one),
        Feature::Pair(one, two) => format!("{} and {}", atom(bay, one), atom(bay, two)),
    }
}

// The parts of a statement must not come apart at the end of a line.
fn atom(bay: &Bay, atom: Atom) -> String {
    format!(
        "<span class=\"atom\">{} = {}</span>",
        slot(bay, atom.variable),
        label(bay, atom.value)
    )
}

/// Text that stands between tags.
pub fn escaped(text: &str) -> String {
    let mut out = String::new();
    for character in text.chars() {
        match character {
            '&' => out.push_str("&amp;"),
            '<' => out.push_str("&lt;"),
            '>' => out.push_str("&gt;"),
            '"' => out.push_str("&quot;"),
            c => out.push(c),
        }
    }
    out
}

#[cfg(test)]
mod tests {
    use super::*;

    #[test]
    fn sixteen_slots_have_names_of_their_own() {
        let names = |letters: &str| {
            let bay = Bay {
                rows: 4,
                columns: 4,
                start: vec![0; 16],
                goal: vec![None; 16],
                letters: letters.chars().collect(),
            };
            [0, 8, 9, 15].map(|index| slot(&bay, index)).join(" ")
        };
        assert_eq!(names(""), "A I J P");
        assert_eq!(names("AB"), "1 9 10 16");
    }
}

//! One move from the start, worked through on the page.

use super::listed::Listed;
use super::moves;
use super::pictures;
use super::words::{feature, slot};
use crate::bay::Bay;
use crate::features::Feature;
use crate::words::{counted, parity};

/// The move with its pictures and the features that it changes.
pub fn section(bay: &Bay, listed: &Listed) -> String {
    let Some(step) = moves::telling(bay, listed) else {
        return String::new();
    };
    let later = step.applied(&bay.start);
    let lost = listed.lost(&bay.start, &later);
    let gained = listed.lost(&later, &bay.start);
    let bays = [
        ("before the move", &*bay.start),
        ("after the move", &*later),
    ];
    format!(
        "<h3>One move, as an example</h3>\n{}\
         <p>Pallet {} slides from slot {} to slot {}.</p>\n\
         <div class=\"columns\">\n<div><h4>No longer true: {}</h4>{}</div>\n\
         <div><h4>Newly true: {}</h4>{}</div>\n</div>\n<p>{}</p>\n",
        pictures::two(bay, bays, &[step.gap, step.from]),
        bay.name(step.pallet),
        slot(bay, step.from),
        slot(bay, step.gap),
        lost.len(),
        list(bay, &lost),
        gained.len(),
        list(bay, &gained),
        sum(bay, listed, &lost, &gained),
    )
}

fn list(bay: &Bay, features: &[Feature]) -> String {
    if features.is_empty() {
        return "<p>None.</p>".to_string();
    }
    let items = features
        .iter()
        .map(|&one| format!("<li>{}</li>", feature(bay, one)));
    format!("<ul>{}</ul>", items.collect::<String>())
}

fn sum(bay: &Bay, listed: &Listed, lost: &[Feature], gained: &[Feature]) -> String {
    let before = listed.true_in(&bay.start).len();
    let after = before - lost.len() + gained.len();
    let changed = lost.len() + gained.len();
    format!(
        "{} changed, which is {}. The count goes from {before} to {before} &#8722; {} + {} = {after}: \
         it was {}, and it is {}.",
        counted(changed, "listed feature"),
        parity(changed),
        lost.len(),
        gained.len(),
        parity(before),
        parity(after)
    )
}

//! The answer in one line.

use crate::question::{Answered, Proof};
use crate::words::{counted, parity};

/// The answer in one line.
pub fn line(answered: &Answered) -> String {
    let shape = shape(answered);
    match &answered.asked.proof {
        Some(proof) => format!("IMPOSSIBLE ({shape}, {})", evidence(proof)),
        None if answered.is_impossible_each_way() => format!(
            "IMPOSSIBLE ({shape}, {} to fill the others and each impossible, accepted by the checker)",
            counted(answered.ways.len(), "way")
        ),
        None => format!(
            "NO PARITY PROOF ({shape}{}; this does not mean that the order can be done)",
            ways(answered)
        ),
    }
}

fn shape(answered: &Answered) -> String {
    let bay = &answered.bay;
    let named = (!bay.is_full()).then(|| bay.named());
    let parts = [Some(bay.shape()), named, bay.alike()]
        .into_iter()
        .flatten();
    parts.collect::<Vec<_>>().join(", ")
}

/// What proves a task impossible, in short.
pub fn evidence(proof: &Proof) -> String {
    format!(
        "{}, start {}, goal {}, accepted by the checker",
        counted(proof.weights.len(), "weight"),
        parity(proof.true_at_start.len()),
        parity(proof.true_at_goal.len())
    )
}

// What came of the ways to fill the silent slots, where not all are impossible.
fn ways(answered: &Answered) -> String {
    let count = counted(answered.bay.ways(), "way");
    match answered.ways.len() {
        _ if answered.bay.is_full() => String::new(),
        0 => format!(", {count} to fill the others not asked one by one"),
        _ => {
            let impossible = answered.impossible_ways();
            format!(", {count} to fill the others and {impossible} of them impossible")
        }
    }
}

//! The words of an answer, for people and for programs.

mod json;
mod line;

use crate::bay::Bay;
use crate::picture;
use crate::question::{Answered, Asked, Proof, Way, MOST_WAYS};
use crate::words::{counted, parity};
pub use json::{json, note};
pub use line::line;

/// What has to stand wherever there is no proof.
pub const NOT_DONE: &str = "This does not mean that the order can be done.";

/// What a label means that stands more than once.
pub const ALIKE: &str = "Pallets of one label are alike";

/// Both bays and the answer, in full.
pub fn full(name: &str, answered: &Answered) -> String {
    let bay = &answered.bay;
    let described = bay.described();
    let pictures = picture::both(bay);
    let words = match &answered.asked.proof {
        Some(proof) => impossible(bay, proof),
        None if answered.is_impossible_each_way() => impossible_each_way(answered),
        None => no_proof(answered),
    };
    let alike = alike(bay);
    format!("{name}: {described}\n\n{pictures}\n{alike}{words}")
}

// Whoever sees a label twice has to know what that means.
fn alike(bay: &Bay) -> String {
    let alike = bay.alike();
    alike.map_or(String::new(), |alike| format!("{ALIKE}: {alike}.\n"))
}

fn impossible(bay: &Bay, proof: &Proof) -> String {
    let (unknown, forgetting) = match bay.is_full() {
        true => ("", ""),
        false => (
            ", where ? is unknown",
            ", nor can a slot with ? that becomes unknown",
        ),
    };
    format!(
        "{}\
         What proves it:\n\
         \x20 weights   {}, each a feature of one slot or of two\n\
         \x20 start     {}\n\
         \x20 goal      {}{unknown}\n\
         \x20 checker   accepted: no move can change odd to even, or even to odd{forgetting}\n",
        verdict(bay),
        proof.weights.len(),
        count(proof.true_at_start.len()),
        count(proof.true_at_goal.len())
    )
}

fn verdict(bay: &Bay) -> String {
    let every_way = match bay.is_full() {
        true => "",
        false => ", whichever way the slots with ? are filled",
    };
    format!(
        "IMPOSSIBLE. No sequence of moves leads from the bay as it stands to the bay as it is \
         wanted{every_way}.\n"
    )
}

fn count(count: usize) -> String {
    let verb = if count == 1 { "is" } else { "are" };
    format!("{count} of these features {verb} true: {}", parity(count))
}

fn impossible_each_way(answered: &Answered) -> String {
    format!(
        "{}\
         What proves it: no pallet comes or goes, so the slots with ? can be filled in {} only. \
         Each was asked by itself, and each is impossible:\n{}",
        verdict(&answered.bay),
        counted(answered.ways.len(), "way"),
        ways(&answered.ways)
    )
}

fn ways(ways: &[Way]) -> String {
    let row = |(index, way): (usize, &Way)| {
        let number = index + 1;
        let labels = typed(&way.bay);
        format!("  way {number:<2}  {labels}   {}\n", outcome(&way.asked))
    };
    ways.iter().enumerate().map(row).collect()
}

// The goal of a full order in one line, as a person types its rows.
fn typed(bay: &Bay) -> String {
    let row = |row: &[usize]| {
        let labels: Vec<String> = row.iter().map(|label| bay.name(*label)).collect();
        labels.join(" ")
    };
    let rows: Vec<String> = bay.wanted().chunks(bay.columns).map(row).collect();
    rows.join(" / ")
}

fn outcome(asked: &Asked) -> String {
    match &asked.proof {
        Some(proof) => format!("impossible: {}", line::evidence(proof)),
        None => "no parity proof".to_string(),
    }
}

fn no_proof(answered: &Answered) -> String {
    format!("NO PARITY PROOF. {NOT_DONE}\n{}", known(answered))
}

// What is known where there is no proof.
fn known(answered: &Answered) -> String {
    let bay = &answered.bay;
    match (bay.is_full(), bay.is_met()) {
        (true, true) => "The two bays are alike, so there is nothing to prove impossible.\n".into(),
        (true, false) => {
            "No list of features separates the two bays by odd and even. That is all that is known.\n"
                .into()
        }
        (false, true) => {
            "The bay as it stands has all that the order names, so there is nothing to prove \
             impossible.\n"
                .into()
        }
        (false, false) => known_of_ways(answered),
    }
}

fn known_of_ways(answered: &Answered) -> String {
    let count = counted(answered.bay.ways(), "way");
    let one_by_one = match answered.ways.len() {
        0 => format!(
            "They can be filled in {count}, which is more than {MOST_WAYS}, so the ways were not \
             asked one by one. That is all that is known.\n"
        ),
        asked => format!(
            "They can be filled in {count}. Each was asked by itself: {} of {asked} impossible. \
             That is all that is known.\n{}",
            answered.impossible_ways(),
            ways(&answered.ways)
        ),
    };
    format!(
        "No list of features separates the two bays by odd and even while the slots with ? are left \
         open. {one_by_one}"
    )
}

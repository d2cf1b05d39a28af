//! The answer for a program.

use super::NOT_DONE;
use crate::bay::Bay;
use crate::json::Json;
use crate::output::Status;
use crate::question::{Answered, Proof, Way};
use crate::words::parity;

/// The answer for a program.
pub fn json(name: &str, answered: &Answered) -> Json {
    let bay = &answered.bay;
    let silent = bay.silent();
    let mut fields = vec![
        ("file", Json::text(name)),
        ("shape", Json::Text(bay.shape())),
        ("rows", Json::number(bay.rows)),
        ("columns", Json::number(bay.columns)),
        ("start", grid(bay, &bay.stands())),
        ("goal", grid(bay, &bay.goal)),
        ("named", Json::number(bay.slots() - silent.len())),
        ("silent", Json::numbers(&silent)),
        ("labels", labels(bay)),
    ];
    fields.extend(outcome(answered.status(), answered.asked.proof.as_ref()));
    if !bay.is_full() {
        fields.push(("ways", ways(answered)));
    }
    Json::Object(fields)
}

// Rows of labels; null is a slot that the order does not name.
fn grid(bay: &Bay, labels: &[Option<usize>]) -> Json {
    let label = |label: &Option<usize>| label.map_or(Json::Null, Json::Number);
    let row = |row: &[Option<usize>]| Json::List(row.iter().map(label).collect());
    Json::List(labels.chunks(bay.columns).map(row).collect())
}

// Each label that stands in the bay: its number in the grids and in the files, as it was typed, and
// how often it stands there.
fn labels(bay: &Bay) -> Json {
    let label = |(number, count): (usize, usize)| {
        Json::Object(vec![
            ("number", Json::number(number)),
            ("typed", Json::Text(bay.name(number))),
            ("count", Json::number(count)),
        ])
    };
    Json::List(bay.held().into_iter().map(label).collect())
}

type Fields = Vec<(&'static str, Json)>;

fn outcome(status: Status, proof: Option<&Proof>) -> Fields {
    let mut fields = match status {
        Status::Yes => vec![("answer", Json::text("impossible"))],
        _ => vec![("answer", Json::text("no parity proof")), note()],
    };
    fields.extend(proof.map(|proof| ("proof", proof_json(proof))));
    fields
}

/// What has to stand with an answer that is no proof, for a program.
pub fn note() -> (&'static str, Json) {
    ("note", Json::text(NOT_DONE))
}

fn ways(answered: &Answered) -> Json {
    let asked = &answered.ways;
    Json::Object(vec![
        ("count", Json::number(answered.bay.ways())),
        ("asked", Json::number(asked.len())),
        ("impossible", Json::number(answered.impossible_ways())),
        ("answers", Json::List(asked.iter().map(way).collect())),
    ])
}

fn way(way: &Way) -> Json {
    let mut fields = vec![("goal", grid(&way.bay, &way.bay.goal))];
    fields.extend(outcome(way.asked.status(), way.asked.proof.as_ref()));
    Json::Object(fields)
}

fn proof_json(proof: &Proof) -> Json {
    Json::Object(vec![
        ("checker", Json::text("accepted")),
        ("count", Json::number(proof.weights.len())),
        ("weights", Json::numbers(&proof.weights)),
        ("start", count_json(&proof.true_at_start)),
        ("goal", count_json(&proof.true_at_goal)),
    ])
}

fn count_json(features: &[usize]) -> Json {
    Json::Object(vec![
        ("true", Json::number(features.len())),
        ("parity", Json::text(parity(features.len()))),
        ("features", Json::numbers(features)),
    ])
}

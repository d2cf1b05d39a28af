//! Opening and checking by new files, beside the same calls by old ones.

use super::kinds::Kinds;
use super::sizes::Line;
use crate::measure::{in_turn, Contestant, LEAST};
use crate::table::shown;
use crate::{library, rooms};
use std::cell::RefCell;

/// One line of the table: the least seconds of a call by old files and by new ones.
pub struct Reading {
    name: String,
    call: &'static str,
    old: f64,
    new: f64,
}

impl Reading {
    /// Both have their turns round by round.
    fn new(
        line: &Line,
        call: &'static str,
        old: impl FnMut() -> u64,
        new: impl FnMut() -> u64,
    ) -> Reading {
        let contestants = vec![Contestant::warm(old), Contestant::warm(new)];
        let times = in_turn(&LEAST, contestants);
        Reading {
            name: line.name.clone(),
            call,
            old: times[0].least(),
            new: times[1].least(),
        }
    }
}

/// Measures a task that has weights.
pub fn measure(line: &Line) -> Result<Vec<Reading>, String> {
    let weights = line.weights.as_ref().ok_or("no weights are found")?;
    let mut readings = vec![opening(line)?];
    readings.extend(checks(line, &weights.file));
    Ok(readings)
}

/// Opening both files, in one room, so that its place in memory is no difference; the same words have to come of them.
fn opening(line: &Line) -> Result<Reading, String> {
    let Kinds { old, new } = &line.task;
    let workspace = rooms::opened(old).ok_or("the opening is refused")?;
    if rooms::opened(new).as_ref() != Some(&workspace) {
        return Err("the two openings leave different words".to_string());
    }
    let room = RefCell::new(workspace);
    let open = |task| library::open(task, &mut room.borrow_mut());
    Ok(Reading::new(line, "open", || open(old), || open(new)))
}

/// Checking the same old weights beside both task files, and then new weights beside the new one.
fn checks(line: &Line, weights: &Kinds) -> [Reading; 2] {
    let Kinds { old, new } = &line.task;
    let check_old = || library::check(old, &weights.old);
    [
        Reading::new(line, "check", check_old, || {
            library::check(new, &weights.old)
        }),
        Reading::new(line, "check, weights new too", check_old, || {
            library::check_new(new, &weights.new)
        }),
    ]
}

pub fn print(readings: &[Reading]) {
    println!("| case | call | old, least | new, least | new / old |");
    println!("|---|---|---|---|---|");
    for reading in readings {
        println!(
            "| {} | {} | {} | {} | {:.3} |",
            reading.name,
            reading.call,
            shown(reading.old),
            shown(reading.new),
            reading.new / reading.old,
        );
    }
}

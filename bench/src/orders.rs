//! Opening an order that names some slots, beside opening the task file that is built for it: the same words come of both.

use crate::measure::{in_turn, Contestant, Times, FIGURE};
use crate::table::shown;
use crate::targets::verdict;
use crate::tasks::bays::{task_file, written};
use crate::{answer, library};

const NAME: &str = "order for a bay 3 by 3, two slots silent";

/// Which slots the order names: all but the first two, the gap's among them.
const MARKS: [u8; 9] = [0, 0, 1, 1, 1, 1, 1, 1, 1];

/// Opening the order takes at most so many times as long as opening the built task.
const TARGET: f64 = 1.1;

/// More words than the workspace has.
const ROOM: usize = 262_401;

/// The times of both openings, that of the order first.
pub struct Opened {
    times: Vec<Times>,
}

/// Measures it if its name contains the words that are wanted.
pub fn measure(wanted: &str) -> Result<Option<Opened>, String> {
    if !NAME.contains(wanted) {
        return Ok(None);
    }
    eprintln!("{NAME} ..");
    let order = written(|room| library::silence(&task_file(3, 3), &MARKS, room));
    let task = written(|room| library::build_partial(&order, room));
    let mut rooms = [vec![0; ROOM], vec![0; ROOM]];
    let [of_order, of_task] = &mut rooms;
    let due = library::open_partial(&order, of_order);
    if due != library::open(&task, of_task) || answer::value(due).is_none() {
        return Err(format!(
            "{NAME}: the two openings answer differently, or are refused"
        ));
    }
    if of_order != of_task {
        return Err(format!("{NAME}: the two openings leave different words"));
    }
    let times = in_turn(
        &FIGURE,
        vec![
            Contestant::warm(|| library::open_partial(&order, of_order)),
            Contestant::warm(|| library::open(&task, of_task)),
        ],
    );
    Ok(Some(Opened { times }))
}

pub fn print(opened: &Opened) {
    let [order, task] = &opened.times[..] else {
        return;
    };
    let ratio = order.over(task);
    println!(
        "target {TARGET} (opening an {NAME}, over its built task, at most): {}; it is {ratio:.2}, {} and {}",
        verdict(ratio <= TARGET),
        shown(order.median()),
        shown(task.median()),
    );
}

//! How much of an opening is spent on reading, closedness and rows: checking the weights that are found takes all three, and no slot.

use crate::measure::{once, timed_warm};
use crate::table::shown;
use crate::tasks::bays::task_file;
use crate::{answer, library, rooms};

const NAME: &str = "bay 4 by 4";

/// How often the check runs.
const REPEATS: u32 = 15;

/// Room for the workspace.
const WORKSPACE_WORDS: usize = 14_992_917;

/// Seconds of both calls.
pub struct Share {
    opening: f64,
    checking: f64,
}

/// Measures it if its name contains the words that are wanted.
pub fn measure(wanted: &str) -> Result<Option<Share>, String> {
    if !NAME.contains(wanted) {
        return Ok(None);
    }
    eprintln!("{NAME}, checking ..");
    let task = task_file(4, 4);
    let mut workspace = vec![0; WORKSPACE_WORDS];
    library::open(&task, &mut workspace);
    let (opened, opening) = once(|| library::open(&task, &mut workspace));
    answer::value(opened).ok_or(format!("{NAME}: the opening is refused"))?;
    let weights = rooms::weights_of(&workspace).ok_or(format!("{NAME}: no weights are found"))?;
    if library::check(&task, &weights) != 0 {
        return Err(format!(
            "{NAME}: the weights that are found are not accepted"
        ));
    }
    let checking = timed_warm(REPEATS, || library::check(&task, &weights)).as_secs_f64();
    Ok(Some(Share {
        opening,
        checking: checking / f64::from(REPEATS),
    }))
}

pub fn print(share: &Option<Share>) {
    if let Some(share) = share {
        println!(
            "reading, closedness and rows of the {NAME}, by checking its weights, over opening it: {:.3}, {} and {}",
            share.checking / share.opening,
            shown(share.checking),
            shown(share.opening),
        );
    }
}

//! When to settle: how long the plain Rust takes to open a case, by the share of its features that are indices of pending slots by then.

use crate::measure::{in_turn, Contestant, Plan, Times};
use crate::plain::{self, Anew};
use crate::table::shown;
use crate::tasks::{self, Case};
use crate::{answer, check};

/// Slots are settled once one of so many features is the index of a pending one.
const SHARES: [usize; 6] = [8, 16, 24, 32, 48, 64];

/// Measures each case and prints one table.
pub fn print() -> Result<(), String> {
    let cases = tasks::cases();
    let measured = cases
        .iter()
        .map(|case| measure(case).map_err(|fault| format!("{}: {fault}", case.name)))
        .collect::<Result<Vec<Vec<Times>>, String>>()?;
    println!(
        "| open{} |",
        SHARES.map(|share| format!(" | N/{share}")).concat()
    );
    println!("|---{}|", "|---".repeat(SHARES.len()));
    for (case, times) in cases.iter().zip(measured) {
        let cells: Vec<String> = times.iter().map(|times| shown(times.median())).collect();
        println!("| {} | {} |", case.name, cells.join(" | "));
    }
    Ok(())
}

/// The times of one case, for each share; all have to lead to the words that the library leaves.
fn measure(case: &Case) -> Result<Vec<Times>, String> {
    eprintln!("{} ..", case.name);
    let workspace = check::opened(case)?;
    let mut contestants = Vec::new();
    for share in SHARES {
        let mut room = vec![0; workspace.len()];
        open(case, share, &mut room);
        if room != workspace {
            return Err(format!("N/{share} leaves different words"));
        }
        contestants.push(Contestant::warm(move || open(case, share, &mut room)));
    }
    Ok(in_turn(Plan::for_figure(case.is_long()), contestants))
}

fn open(case: &Case, share: usize, room: &mut [u64]) -> u64 {
    let opened = plain::open_observed::<Anew, ()>(&case.file, room, share, &mut ());
    answer::opened(opened)
}

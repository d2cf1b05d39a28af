//! How much smaller the new files are than the old ones, and whether reading them takes longer.

mod kinds;
mod reading;
mod sizes;

use crate::tasks::{self, bays, chains, Case, Kind};
use sizes::Line;

/// Rows and columns of the bays.
const BAYS: [(u8, u8); 8] = [
    (1, 2),
    (2, 2),
    (2, 3),
    (2, 4),
    (3, 3),
    (2, 5),
    (3, 4),
    (4, 4),
];

/// Measures each task file and prints two tables.
pub fn print() -> Result<(), String> {
    let mut lines = Vec::new();
    for case in cases() {
        lines.push(named(&case.name, || Line::of_case(&case))?);
    }
    for chain in chains::chains() {
        lines.push(named(&chain.name, || Line::of_chain(&chain))?);
    }
    let mut readings = Vec::new();
    for line in lines.iter().filter(|line| line.is_timed()) {
        readings.extend(named(&line.name, || reading::measure(line))?);
    }
    sizes::print(&lines);
    reading::print(&readings);
    Ok(())
}

/// The bays, and the random tasks of the other measurements.
fn cases() -> impl Iterator<Item = Case> {
    let bays = BAYS.map(|(rows, columns)| bays::case(rows, columns, Kind::Bay));
    let random = tasks::cases().into_iter().filter(|case| !case.is_bay());
    bays.into_iter().chain(random)
}

/// What is measured under a name, which a fault is told with.
fn named<A>(name: &str, measure: impl FnOnce() -> Result<A, String>) -> Result<A, String> {
    eprintln!("{name} ..");
    measure().map_err(|fault| format!("{name}: {fault}"))
}

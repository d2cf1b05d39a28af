//! Measures opening and finding: the proved library beside plain Rust of the same algorithm in two ways of numbering, beside plain Rust that inserts one
//! row at a time, and libm4ri on the same rows. Below that opening an order that names some slots, what opening a bay has to do, and mending pair lists.
//! With `thresholds` it measures when to settle instead, with `files` how much smaller the new files are, with `--stack` the stack of every public call.

mod answer;
mod calls;
mod check;
mod clock;
mod files;
mod library;
#[cfg_attr(not(feature = "m4ri"), path = "no_m4ri.rs")]
mod m4ri;
mod measure;
mod mending;
mod orders;
mod plain;
mod rooms;
mod share;
mod stack;
mod table;
mod targets;
mod tasks;
mod thresholds;
mod work;

use calls::{FINDINGS, OPENINGS};
use check::Checked;
use m4ri::Echelon;
use measure::{in_turn, Contestant, Plan, FIGURE, TRIAL};
use std::process::ExitCode;
use table::{Line, OPENING};
use tasks::Case;
use work::Work;

/// On a long case libm4ri takes so long that it has no turn after so many rounds.
const LONG_REDUCTIONS: usize = 3;

/// What is printed of the cases: a line for each call, and what opening the bays has to do.
#[derive(Default)]
struct Measured {
    lines: Vec<Line>,
    works: Vec<Work>,
}

impl Measured {
    fn add(&mut self, case: &Case) -> Result<(), String> {
        eprintln!("{} ..", case.name);
        let checked = check::check(case)?;
        let opening = measure_opening(case, &checked);
        if case.is_bay() {
            let seconds = opening.library_seconds();
            self.works.push(Work::new(case, &checked, seconds));
        }
        self.lines.push(opening);
        self.lines.push(measure_finding(case, &checked));
        Ok(())
    }
}

/// Opening by the library and by the plain Rust, and libm4ri's fastest way to reduce the same rows.
fn measure_opening(case: &Case, checked: &Checked) -> Line {
    let mut contestants: Vec<Contestant> = OPENINGS
        .map(|open| {
            let mut room = checked.workspace.clone();
            Contestant::warm(move || open(&case.file, &mut room))
        })
        .into();
    let way = way_of(case, checked);
    contestants.extend(way.map(|way| reduction_beside(case, checked, way)));
    let times = in_turn(Plan::for_figure(case.is_long()), contestants);
    let way = way.map(|way| m4ri::WAYS[way]);
    Line::new(case, OPENING, checked, times, way)
}

/// libm4ri's way that is measured: the fastest; of a long case the one that is checked, which was the fastest of all other cases.
fn way_of(case: &Case, checked: &Checked) -> Option<usize> {
    if case.is_long() {
        m4ri::checked_ways(true).next()
    } else {
        fastest_way(checked)
    }
}

fn fastest_way(checked: &Checked) -> Option<usize> {
    let ways = 0..m4ri::WAYS.len();
    let contestants = ways.clone().map(|way| reduction(checked, way)).collect();
    let times = in_turn(&TRIAL, contestants);
    ways.min_by(|&one, &other| times[one].median().total_cmp(&times[other].median()))
}

fn reduction(checked: &Checked, way: usize) -> Contestant<'_> {
    let mut echelon = Echelon::new(&checked.rows, checked.features);
    Contestant::new(move |repeats| (0..repeats).map(|_| echelon.timed_reduction(way)).sum())
}

/// The reduction that has its turns beside the openings of a case.
fn reduction_beside<'a>(case: &Case, checked: &'a Checked, way: usize) -> Contestant<'a> {
    let reduction = reduction(checked, way);
    if case.is_long() {
        reduction.in_first(LONG_REDUCTIONS)
    } else {
        reduction
    }
}

fn measure_finding(case: &Case, checked: &Checked) -> Line {
    let contestants = FINDINGS.map(|find| {
        let mut room = vec![0; checked.width()];
        Contestant::warm(move || find(&checked.workspace, &mut room))
    });
    let times = in_turn(&FIGURE, contestants.into());
    Line::new(case, finding(checked), checked, times, None)
}

fn finding(checked: &Checked) -> &'static str {
    if checked.separates {
        "find"
    } else {
        "find (none)"
    }
}

/// Measures each case, or those whose names contain the first argument; or when to settle; or both kinds of files; or stack, by a listing of the library's
/// functions.
fn main() -> ExitCode {
    let arguments: Vec<String> = std::env::args().skip(1).collect();
    let measured = match &arguments[..] {
        [option, listing] if option == "--stack" => stack::print(listing),
        [option] if option == "thresholds" => thresholds::print(),
        [option] if option == "files" => files::print(),
        [wanted, ..] => run(wanted),
        [] => run(""),
    };
    match measured {
        Ok(()) => ExitCode::SUCCESS,
        Err(difference) => {
            eprintln!("{difference}");
            ExitCode::FAILURE
        }
    }
}

fn run(wanted: &str) -> Result<(), String> {
    let mut measured = Measured::default();
    for case in tasks::cases() {
        if case.name.contains(wanted) {
            measured
                .add(&case)
                .map_err(|fault| format!("{}: {fault}", case.name))?;
        }
    }
    let share = share::measure(wanted)?;
    let order = orders::measure(wanted)?;
    let mended = mending::measure(wanted)?;
    table::print(&measured.lines);
    targets::print(&measured.lines);
    share::print(&share);
    if let Some(order) = &order {
        orders::print(order);
    }
    work::print(&measured.works);
    mending::print(&mended);
    Ok(())
}

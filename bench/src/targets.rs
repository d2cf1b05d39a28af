//! Whether the targets of openings and findings are met; a missed one is printed and fails nothing.

use crate::table::Line;
use crate::tasks::Kind;

/// Opening and finding take the library at most so many times as long as the plain Rust.
const OPEN_TARGET: f64 = 1.3;
const FIND_TARGET: f64 = 1.5;

/// Opening a random task takes the library at most so many times as long as the plain Rust one row at a time.
const DENSE_TARGET: f64 = 1.0;

/// libm4ri takes at least so many times as long on a bay's rows as the library takes to open it.
const NINE_ECHELON_TARGET: f64 = 4.5;
const SIXTEEN_ECHELON_TARGET: f64 = 25.0;

/// Opening the bay of sixteen slots takes the plain Rust one row at a time at least so many times as long as the library.
const SIXTEEN_AT_ONCE_TARGET: f64 = 5.0;

pub fn verdict(is_met: bool) -> &'static str {
    if is_met {
        "met"
    } else {
        "missed"
    }
}

pub fn print(lines: &[Line]) {
    let over_plain = |line: &Line| Some(line.library_over_plain());
    let openings = || lines.iter().filter(|line| line.is_opening());
    let findings = lines.iter().filter(|line| !line.is_opening());
    let dense = openings().filter(|line| line.kind == Kind::Dense);
    print_at_most(
        OPEN_TARGET,
        "library over plain Rust, opening",
        largest(openings(), over_plain),
    );
    print_at_most(
        FIND_TARGET,
        "library over plain Rust, finding",
        largest(findings, over_plain),
    );
    print_tables(lines);
    print_at_most(
        DENSE_TARGET,
        "library over plain Rust one row at a time, opening a dense task",
        largest(dense, Line::library_over_at_once),
    );
    openings().for_each(print_bay);
}

/// The largest ratio of some lines, with its line.
fn largest<'a>(
    lines: impl Iterator<Item = &'a Line>,
    ratio: impl Fn(&Line) -> Option<f64>,
) -> Option<(f64, &'a Line)> {
    lines
        .filter_map(|line| Some((ratio(line)?, line)))
        .max_by(|(one, _), (other, _)| one.total_cmp(other))
}

fn print_at_most(target: f64, what: &str, largest: Option<(f64, &Line)>) {
    if let Some((ratio, line)) = largest {
        println!(
            "target {target} ({what}, at most): {}; the largest is {ratio:.2}, {} of {}",
            verdict(ratio <= target),
            line.call,
            line.case,
        );
    }
}

fn print_tables(lines: &[Line]) {
    let over_tables = |line: &Line| Some(line.library_over_tables());
    if let Some((ratio, line)) = largest(lines.iter(), over_tables) {
        println!(
            "beside tables that are kept for the whole call: at most {ratio:.2}, {} of {}",
            line.call, line.case,
        );
    }
}

/// The targets of the bays that have some of their own.
fn print_bay(line: &Line) {
    let print_echelon = |target| {
        let what = format!("libm4ri over library on the rows of the {}", line.case);
        print_at_least(target, &what, line.echelon_over_library());
    };
    match line.kind {
        Kind::Nine => print_echelon(NINE_ECHELON_TARGET),
        Kind::Sixteen => {
            print_echelon(SIXTEEN_ECHELON_TARGET);
            let what = format!("one row at a time over library, opening the {}", line.case);
            print_at_least(SIXTEEN_AT_ONCE_TARGET, &what, line.at_once_over_library());
        }
        Kind::Bay | Kind::Dense => {}
    }
}

fn print_at_least(target: f64, what: &str, ratio: Option<f64>) {
    let outcome = match ratio {
        Some(ratio) => format!("{}; it is {ratio:.2}", verdict(ratio >= target)),
        None => "not measured".to_string(),
    };
    println!("target {target} ({what}, at least): {outcome}");
}

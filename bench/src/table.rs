//! The table of openings and findings.

use crate::check::Checked;
use crate::measure::Times;
use crate::tasks::{Case, Kind};

/// How the lines of openings name their call.
pub const OPENING: &str = "open";

/// One line of the table: a case and a call, with the times of each program.
pub struct Line {
    pub case: String,
    pub kind: Kind,
    pub call: &'static str,
    size: String,
    library: Times,
    plain: Times,
    tables: Times,
    at_once: Option<Times>,
    /// The way of libm4ri that is measured, and its times.
    echelon: Option<(&'static str, Times)>,
}

impl Line {
    /// A line from the times of the programs in the order of the columns: the library, the plain Rust in two ways of numbering, and where they are
    /// measured the plain Rust one row at a time and a way of libm4ri.
    pub fn new(
        case: &Case,
        call: &'static str,
        checked: &Checked,
        times: Vec<Times>,
        way: Option<&'static str>,
    ) -> Line {
        let mut times = times.into_iter();
        let mut next = || times.next().expect("each line has three programs");
        Line {
            case: case.name.clone(),
            kind: case.kind,
            call,
            size: size(checked),
            library: next(),
            plain: next(),
            tables: next(),
            at_once: times.next(),
            echelon: way.zip(times.next()),
        }
    }

    pub fn is_opening(&self) -> bool {
        self.call == OPENING
    }

    /// Seconds that the library takes.
    pub fn library_seconds(&self) -> f64 {
        self.library.median()
    }

    pub fn library_over_plain(&self) -> f64 {
        self.library.over(&self.plain)
    }

    pub fn library_over_tables(&self) -> f64 {
        self.library.over(&self.tables)
    }

    pub fn library_over_at_once(&self) -> Option<f64> {
        Some(self.library.over(self.at_once.as_ref()?))
    }

    pub fn at_once_over_library(&self) -> Option<f64> {
        Some(self.at_once.as_ref()?.over(&self.library))
    }

    pub fn echelon_over_library(&self) -> Option<f64> {
        let (_, times) = self.echelon.as_ref()?;
        Some(times.over(&self.library))
    }
}

fn size(checked: &Checked) -> String {
    format!(
        "{} | {} | {} | {}",
        checked.features,
        checked.operators,
        checked.row_count(),
        checked.filled
    )
}

/// A time in the unit that suits it.
pub fn shown(seconds: f64) -> String {
    if seconds < 1e-3 {
        format!("{:.1} µs", seconds * 1e6)
    } else if seconds < 1.0 {
        format!("{:.2} ms", seconds * 1e3)
    } else {
        format!("{seconds:.2} s")
    }
}

fn shown_median(times: &Times) -> String {
    shown(times.median())
}

fn shown_ratio(ratio: f64) -> String {
    format!("{ratio:.2}")
}

/// What a cell shows that may have nothing to show.
fn cell(content: Option<String>) -> String {
    content.unwrap_or_else(|| "-".to_string())
}

pub fn print(lines: &[Line]) {
    println!("| case | features | operators | rows | slots filled | call | library | plain Rust | library / plain | tables kept | library / tables kept | one row at a time | one row at a time / library | libm4ri | libm4ri / library |");
    println!("|---|---|---|---|---|---|---|---|---|---|---|---|---|---|---|");
    for line in lines {
        print_line(line);
    }
    println!();
}

fn print_line(line: &Line) {
    let echelon = line.echelon.as_ref();
    println!(
        "| {} | {} | {} | {} | {} | {} | {} | {} | {} | {} | {} | {} |",
        line.case,
        line.size,
        line.call,
        shown_median(&line.library),
        shown_median(&line.plain),
        shown_ratio(line.library_over_plain()),
        shown_median(&line.tables),
        shown_ratio(line.library_over_tables()),
        cell(line.at_once.as_ref().map(shown_median)),
        cell(line.at_once_over_library().map(shown_ratio)),
        cell(echelon.map(|(way, times)| format!("{} ({way})", shown_median(times)))),
        cell(line.echelon_over_library().map(shown_ratio)),
    );
}

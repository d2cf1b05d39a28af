//! Mending a pair list, beside plain Rust of the same algorithm: a bay, whose list is good, and chains, which take many passes.

use crate::measure::{in_turn, once, Contestant, Times, FIGURE};
use crate::plain::{self, Anew, Mended, Task};
use crate::table::shown;
use crate::targets::verdict;
use crate::tasks::bays::task_file;
use crate::tasks::chains::{chains, Chain};
use crate::{answer, library};

const BAY: &str = "mending a bay 3 by 3";

/// Mending a list that is good takes at most so many times as long as one pass of judging 7.
const TARGET: f64 = 3.0;

/// One line of the table: what mending took, with seconds and their ratio.
struct Line {
    name: String,
    mended: Mended,
    library: f64,
    plain: f64,
    ratio: f64,
}

/// The bay's line, and the times of mending, of one pass of judging 7 in plain Rust and of the library's `pair_fault`.
struct Bay {
    line: Line,
    mend: Times,
    pass: Times,
    fault: Times,
}

pub struct Measured {
    bay: Option<Bay>,
    chains: Vec<Line>,
}

/// Measures what has a name that contains the words that are wanted.
pub fn measure(wanted: &str) -> Result<Measured, String> {
    let bay = BAY.contains(wanted).then(measure_bay).transpose()?;
    let chains = chains()
        .iter()
        .filter(|chain| chain.name.contains(wanted))
        .map(measure_chain)
        .collect::<Result<Vec<Line>, String>>()?;
    Ok(Measured { bay, chains })
}

fn measure_bay() -> Result<Bay, String> {
    eprintln!("{BAY} ..");
    let file = task_file(3, 3);
    let line = mended_once(BAY, &file, &file)?;
    let task =
        Task::<Anew>::read(&file).map_err(|refusal| format!("{BAY}: refused: {refusal:?}"))?;
    let mut room = vec![0; file.len()];
    let mut words = [0; 2];
    if library::pair_fault(&file, &mut words) != 0 {
        return Err(format!("{BAY}: the library finds a fault in its pairs"));
    }
    let times = in_turn(
        &FIGURE,
        vec![
            Contestant::warm(|| library::mend(&file, &mut room)),
            Contestant::warm(|| {
                plain::mend::<Anew>(&file).map_or(0, |mended| mended.passes as u64)
            }),
            Contestant::warm(|| u64::from(task.is_closed())),
            Contestant::warm(|| library::pair_fault(&file, &mut words)),
        ],
    );
    let [mend, plain, pass, fault] =
        <[Times; 4]>::try_from(times).map_err(|_| "each contestant has its times")?;
    let line = Line {
        library: mend.median(),
        plain: plain.median(),
        ratio: mend.over(&plain),
        ..line
    };
    Ok(Bay {
        line,
        mend,
        pass,
        fault,
    })
}

/// A chain takes so long that each runs once.
fn measure_chain(chain: &Chain) -> Result<Line, String> {
    eprintln!("{} ..", chain.name);
    mended_once(&chain.name, &chain.file, &chain.mended)
}

/// Mends a file once by the library and once by the plain Rust, and compares both with what is due.
fn mended_once(name: &str, file: &[u8], due: &[u8]) -> Result<Line, String> {
    let mut room = vec![0; file.len()];
    let (answer, library) = once(|| library::mend(file, &mut room));
    let (mended, plain) = once(|| plain::mend::<Anew>(file));
    let mended = mended.map_err(|refusal| format!("{name}: refused: {refusal:?}"))?;
    if answer::value(answer).and_then(|length| room.get(..length)) != Some(due) {
        return Err(format!("{name}: the library leaves another file"));
    }
    if mended.file != due {
        return Err(format!("{name}: the plain Rust leaves another file"));
    }
    Ok(Line {
        name: name.to_string(),
        mended,
        library,
        plain,
        ratio: library / plain,
    })
}

pub fn print(measured: &Measured) {
    let lines: Vec<&Line> = measured
        .bay
        .iter()
        .map(|bay| &bay.line)
        .chain(&measured.chains)
        .collect();
    if lines.is_empty() {
        return;
    }
    println!();
    println!("| case | pairs | pairs kept | operators | passes | operators read | operators judged | library | plain Rust | library / plain |");
    println!("|---|---|---|---|---|---|---|---|---|---|");
    for line in lines {
        print_line(line);
    }
    println!();
    if let Some(bay) = &measured.bay {
        print_target(bay);
    }
}

fn print_line(line: &Line) {
    let mended = &line.mended;
    println!(
        "| {} | {} | {} | {} | {} | {} | {} | {} | {} | {:.2} |",
        line.name,
        mended.listed,
        mended.kept,
        mended.operators,
        mended.passes,
        mended.operators * mended.passes,
        mended.judged,
        shown(line.library),
        shown(line.plain),
        line.ratio,
    );
}

fn print_target(bay: &Bay) {
    let ratio = bay.mend.over(&bay.pass);
    println!(
        "target {TARGET} ({BAY}, over one pass of judging 7 in plain Rust, at most): {}; it is {ratio:.2}, {} and {}",
        verdict(ratio <= TARGET),
        shown(bay.mend.median()),
        shown(bay.pass.median()),
    );
    println!(
        "{BAY} over the library's pair_fault: {:.2}, {} and {}",
        bay.mend.over(&bay.fault),
        shown(bay.mend.median()),
        shown(bay.fault.median()),
    );
}

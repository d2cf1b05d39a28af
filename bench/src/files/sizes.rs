//! The bytes of task files, of their pair lists and of the weights that are found, for both kinds.

use super::kinds::Kinds;
use crate::plain::{Listing, Reader, Refusal};
use crate::tasks::chains::Chain;
use crate::tasks::Case;
use crate::{library, rooms};

/// The tasks whose files are read against the clock too: both list pairs.
const TIMED: [&str; 2] = ["bay 3 by 3", "dense, 10 of size 9, pairs"];

/// One line of the table.
pub struct Line {
    pub name: String,
    listing: Listing,
    pub task: Kinds,
    pairs: Kinds,
    pub weights: Option<Weights>,
}

/// The weights that are found.
pub struct Weights {
    count: usize,
    pub file: Kinds,
}

impl Line {
    /// A task whose file the library converts; the new one differs from the old one in its pair list and its 0 alone.
    pub fn of_case(case: &Case) -> Result<Line, String> {
        let line = Line::without_weights(&case.name, &case.file, &case.file)?;
        if Kinds::of_task(&case.file)?.new != line.task.new {
            return Err("the new file differs in more than its pairs".to_string());
        }
        Ok(Line {
            weights: weights_for(&line.task)?,
            ..line
        })
    }

    /// A chain: no call converts its file, whose pair list isn't good. So the new one is put together, and has to have the fault of the old one.
    pub fn of_chain(chain: &Chain) -> Result<Line, String> {
        let line = Line::without_weights(&chain.name, &chain.file, &chain.mended)?;
        if fault_of(&line.task.old) != fault_of(&line.task.new) {
            return Err("the pairs of the new file have another fault".to_string());
        }
        Ok(line)
    }

    /// A task file, beside a good one with the same features, and a new file that is put together around the new pair list.
    fn without_weights(name: &str, file: &[u8], good: &[u8]) -> Result<Line, String> {
        let listing = Listing::read(file).map_err(refused)?;
        let bytes = &listing.pair_bytes;
        let pairs = Kinds::of_pairs(good, &file[bytes.clone()])?;
        let new = [&[0], &file[..bytes.start], &pairs.new, &file[bytes.end..]].concat();
        let old = file.to_vec();
        Ok(Line {
            name: name.to_string(),
            listing,
            task: Kinds { old, new },
            pairs,
            weights: None,
        })
    }

    pub fn is_timed(&self) -> bool {
        TIMED.contains(&self.name.as_str())
    }
}

fn refused(refusal: Refusal) -> String {
    format!("refused: {refusal:?}")
}

/// What the library says of a task's pairs.
fn fault_of(task: &[u8]) -> (u64, [u64; 2]) {
    let mut words = [0; 2];
    (library::pair_fault(task, &mut words), words)
}

/// The weights that are found for a task, where there are any; both kinds have to be accepted.
fn weights_for(task: &Kinds) -> Result<Option<Weights>, String> {
    let workspace = rooms::opened(&task.old).ok_or("the opening is refused")?;
    let Some(old) = rooms::weights_of(&workspace) else {
        return Ok(None);
    };
    let file = Kinds::of_weights(&task.old, &old)?;
    let answers = [
        library::check(&task.old, &file.old),
        library::check(&task.new, &file.old),
        library::check_new(&task.old, &file.new),
        library::check_new(&task.new, &file.new),
    ];
    if answers != [0; 4] {
        return Err("the weights that are found are not accepted".to_string());
    }
    let count = Reader::new(&file.old).number().map_err(refused)?;
    Ok(Some(Weights { count, file }))
}

pub fn print(lines: &[Line]) {
    println!("| case | features | pairs | operators | task file, old | new | new of old | pair list, old | new | new of old | weights | weight file, old | new | new of old |");
    println!("|---|---|---|---|---|---|---|---|---|---|---|---|---|---|");
    for line in lines {
        print_line(line);
    }
    println!();
    println!("files and lists are in bytes; a pair list is counted with its count; a chain's list isn't good, so the library converts that list and not the file");
    println!();
}

fn print_line(line: &Line) {
    println!(
        "| {} | {} | {} | {} | {} | {} | {} |",
        line.name,
        line.listing.features,
        line.listing.pairs,
        line.listing.operators,
        line.task,
        line.pairs,
        shown(&line.weights),
    );
}

/// Four cells: how many weights there are, and their file.
fn shown(weights: &Option<Weights>) -> String {
    match weights {
        Some(weights) => format!("{} | {}", weights.count, weights.file),
        None => "- | - | - | -".to_string(),
    }
}

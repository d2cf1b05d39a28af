//! What opening a bay has to do, and how that grows with the bay.

use crate::check::Checked;
use crate::plain::{self, Additions, Anew, PENDING_SHARE};
use crate::table::shown;
use crate::tasks::Case;

/// One line of the table: a bay, the additions of the plain Rust, and the library's time.
pub struct Work {
    case: String,
    features: usize,
    width: usize,
    workspace_words: usize,
    rows: usize,
    row_members: usize,
    filled: usize,
    slot_members: usize,
    additions: Additions,
    /// Seconds that the library takes to open it.
    opening: f64,
}

impl Work {
    pub fn new(case: &Case, checked: &Checked, opening: f64) -> Work {
        Work {
            case: case.name.clone(),
            features: checked.features,
            width: checked.width(),
            workspace_words: checked.workspace.len(),
            rows: checked.row_count(),
            row_members: members(&checked.rows),
            filled: checked.filled,
            slot_members: members(checked.slots()),
            additions: additions(case, checked),
            opening,
        }
    }

    /// The library's time for each word of each row.
    fn nanoseconds(&self) -> f64 {
        self.opening * 1e9 / (self.rows * self.width) as f64
    }
}

/// How many members some sets have in all.
fn members(words: &[u64]) -> usize {
    words.iter().map(|word| word.count_ones() as usize).sum()
}

/// The additions of an opening that is not timed.
fn additions(case: &Case, checked: &Checked) -> Additions {
    let mut room = checked.workspace.clone();
    let mut additions = Additions::default();
    plain::open_observed::<Anew, _>(&case.file, &mut room, PENDING_SHARE, &mut additions)
        .expect("a checked case is opened");
    additions
}

pub fn print(works: &[Work]) {
    if works.is_empty() {
        return;
    }
    println!();
    println!("| work | features | words in a set | words of the workspace | rows | members of all rows | slots filled | members of all filled slots | slots added to rows | slots added when clearing and settling | opening by the library | ns for a row and a word |");
    println!("|---|---|---|---|---|---|---|---|---|---|---|---|");
    for work in works {
        print_line(work);
    }
}

fn print_line(work: &Work) {
    println!(
        "| {} | {} | {} | {} | {} | {} | {} | {} | {} | {} | {} | {:.2} |",
        work.case,
        work.features,
        work.width,
        work.workspace_words,
        work.rows,
        work.row_members,
        work.filled,
        work.slot_members,
        work.additions.to_rows,
        work.additions.to_slots,
        shown(work.opening),
        work.nanoseconds(),
    );
}

//! Runs each call once and holds the answers and words against each other; a difference ends the run.

use crate::answer;
use crate::calls::{Call, FINDINGS, OPENINGS};
use crate::m4ri::{self, Echelon};
use crate::plain::{self, Tables, Task, WORD_BITS};
use crate::tasks::Case;

/// What a case is like, once all its answers agree.
pub struct Checked {
    pub features: usize,
    pub operators: usize,
    pub rows: Vec<u64>,
    pub workspace: Vec<u64>,
    /// How many slots are not empty.
    pub filled: usize,
    pub separates: bool,
}

impl Checked {
    /// How many words a set of features takes.
    pub fn width(&self) -> usize {
        self.features.div_ceil(WORD_BITS)
    }

    pub fn row_count(&self) -> usize {
        self.rows.len() / self.width()
    }

    /// All slots, one after the other.
    pub fn slots(&self) -> &[u64] {
        &self.workspace[self.workspace.len() - self.features * self.width()..]
    }

    /// The slots that are not empty, one after the other.
    fn filled_slots(&self) -> Vec<u64> {
        let filled = self
            .slots()
            .chunks_exact(self.width())
            .filter(|slot| slot.iter().any(|&word| word != 0));
        filled.flatten().copied().collect()
    }
}

/// As many words as a workspace has in front of its slots at most.
const MOST_HEADER: usize = 705;

/// Words that no call leaves by chance.
fn room(words: usize) -> Vec<u64> {
    vec![0xA5A5_A5A5_A5A5_A5A5; words]
}

pub fn check(case: &Case) -> Result<Checked, String> {
    let task = read(case)?;
    let mut checked = Checked {
        features: task.features.count(),
        operators: task.operators.len(),
        rows: plain::rows_of(&task),
        workspace: opened(case)?,
        filled: 0,
        separates: false,
    };
    checked.separates = separated(&checked)?;
    let filled = checked.filled_slots();
    checked.filled = filled.len() / checked.width();
    check_ways(&checked, &filled, case.is_long())?;
    Ok(checked)
}

fn read(case: &Case) -> Result<Task<Tables>, String> {
    Task::read(&case.file).map_err(|refusal| format!("refused: {refusal:?}"))
}

/// The answer and the words that a call gives, the same ones from all.
fn agreed<I>(
    name: &str,
    words: usize,
    calls: &[Call<I>],
    input: &[I],
) -> Result<(u64, Vec<u64>), String> {
    let mut outcomes = calls.iter().map(|call| {
        let mut room = room(words);
        (call(input, &mut room), room)
    });
    let of_library = outcomes.next().ok_or("there is no call")?;
    for (answer, room) in outcomes {
        if answer != of_library.0 {
            return Err(format!("the calls to {name} answer differently"));
        }
        if room != of_library.1 {
            return Err(format!("the calls to {name} leave different words"));
        }
    }
    Ok(of_library)
}

/// The words that a case is opened to.
pub fn opened(case: &Case) -> Result<Vec<u64>, String> {
    let features = &read(case)?.features;
    let words = MOST_HEADER + features.count() * features.words();
    let (answer, mut room) = agreed("open", words, &OPENINGS, &case.file)?;
    room.truncate(answer::value(answer).ok_or("the opening is refused")?);
    Ok(room)
}

/// Whether weights are found.
fn separated(checked: &Checked) -> Result<bool, String> {
    let words = checked.width() + 1;
    let (answer, _) = agreed("find", words, &FINDINGS, &checked.workspace)?;
    Ok(answer == 0)
}

/// Each way of libm4ri has to lead to the slots that are not empty; where that takes long, the one that is measured.
fn check_ways(checked: &Checked, filled: &[u64], is_long: bool) -> Result<(), String> {
    let mut echelon = Echelon::new(&checked.rows, checked.features);
    for way in m4ri::checked_ways(is_long) {
        echelon.timed_reduction(way);
        if echelon.words() != filled {
            return Err(format!(
                "{} is another form than the slots",
                m4ri::WAYS[way]
            ));
        }
    }
    Ok(())
}

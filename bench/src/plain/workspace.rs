//! A workspace in lent words: opened from a task file, and searched for the least weights that separate.

use super::features::{Atom, Features, MOST_FEATURES};
use super::file::Refusal;
use super::numbering::Numbering;
use super::observer::Observer;
use super::pairs::Pairs;
use super::postponed::{Postponed, PENDING_SHARE};
use super::rows::Rows;
use super::set;
use super::slots::{self, Slots};
use super::task::{Task, MOST_SIZE, MOST_VARIABLES};

/// Where the parts of a workspace begin; the sizes begin behind the first word.
struct Layout {
    start: usize,
    goal: usize,
    pairs: usize,
    slots: usize,
    end: usize,
}

impl Layout {
    fn new<N: Numbering>(features: &Features<N>) -> Layout {
        let variables = features.variables();
        let start = 1 + variables;
        let goal = start + variables;
        let pairs = goal + variables;
        let slots = pairs + features.words();
        let end = slots + features.count() * features.words();
        Layout {
            start,
            goal,
            pairs,
            slots,
            end,
        }
    }
}

/// Opens a workspace, and answers how many words are due.
pub fn open<N: Numbering>(file: &[u8], room: &mut [u64]) -> Result<usize, Refusal> {
    open_observed::<N, ()>(file, room, PENDING_SHARE, &mut ())
}

/// Opens a workspace, and settles after an operator where one of so many features, or more, is the index of a pending slot. The observer is told of
/// each addition.
pub fn open_observed<N: Numbering, O: Observer>(
    file: &[u8],
    room: &mut [u64],
    pending_share: usize,
    observer: &mut O,
) -> Result<usize, Refusal> {
    open_by::<N>(file, room, |task, words| {
        let mut slots = Postponed::new(words, task.features.words(), observer);
        visit_operators(task, |rows| {
            rows.visit(|row| slots.insert(row));
            if slots.pending() >= task.features.count() / pending_share {
                slots.settle();
            }
        });
        slots.settle();
    })
}

/// Opens a workspace one row at a time: each new slot's index is cleared from all slots below at once.
pub fn open_at_once<N: Numbering>(file: &[u8], room: &mut [u64]) -> Result<usize, Refusal> {
    open_by::<N>(file, room, |task, slots| {
        visit_operators(task, |rows| rows.visit(|row| slots::insert(slots, row)));
    })
}

/// Opens a workspace whose slots, all empty at first, are filled in a given way.
fn open_by<N: Numbering>(
    file: &[u8],
    room: &mut [u64],
    fill: impl FnOnce(&Task<N>, &mut [u64]),
) -> Result<usize, Refusal> {
    let task = Task::<N>::read(file)?;
    let layout = Layout::new(&task.features);
    let workspace = room.get_mut(..layout.end).ok_or(Refusal::Small)?;
    let (header, slots) = workspace.split_at_mut(layout.slots);
    fill_header(&task, header);
    slots.fill(0);
    fill(&task, slots);
    Ok(layout.end)
}

fn fill_header<N: Numbering>(task: &Task<N>, header: &mut [u64]) {
    let numbers = [task.features.variables()]
        .into_iter()
        .chain(task.features.sizes().iter().copied())
        .chain(task.start.iter().copied())
        .chain(task.goal.iter().copied())
        .map(|number| number as u64);
    let words = numbers.chain(task.listed.iter().copied());
    for (word, value) in header.iter_mut().zip(words) {
        *word = value;
    }
}

/// Hands over what makes the rows of each operator that is not idle.
fn visit_operators<N: Numbering>(task: &Task<N>, mut visit: impl FnMut(Rows<N>)) {
    let pairs = task.pairs();
    for operator in &task.operators {
        let possible = pairs.possible(operator);
        if !pairs.is_idle(operator, &possible) {
            visit(Rows::new(&task.features, operator, &possible));
        }
    }
}

/// The rows of a task one after the other, each of as many words as its features take.
pub fn rows_of<N: Numbering>(task: &Task<N>) -> Vec<u64> {
    let mut all = Vec::new();
    visit_operators(task, |rows| rows.visit(|row| all.extend_from_slice(row)));
    all
}

/// A well formed workspace, cut into its parts.
struct Parts<'a, N> {
    features: Features<N>,
    start: Vec<usize>,
    goal: Vec<usize>,
    slots: Slots<'a>,
}

impl<'a, N: Numbering> Parts<'a, N> {
    fn of(workspace: &'a [u64]) -> Option<Parts<'a, N>> {
        let features = features_of(workspace)?;
        let layout = Layout::new(&features);
        let workspace = workspace.get(..layout.end)?;
        let start = state_of(&features, &workspace[layout.start..layout.goal])?;
        let goal = state_of(&features, &workspace[layout.goal..layout.pairs])?;
        let listed = &workspace[layout.pairs..layout.slots];
        let slots = Slots::new(&workspace[layout.slots..], features.words());
        let formed = set::least(listed).is_none_or(|least| least >= features.atoms())
            && set::is_below(listed, features.count())
            && !Pairs::new(&features, listed).are_held_by(&start)
            && slots.are_reduced(features.count());
        formed.then_some(Parts {
            features,
            start,
            goal,
            slots,
        })
    }
}

fn features_of<N: Numbering>(workspace: &[u64]) -> Option<Features<N>> {
    let variables = number_within(*workspace.first()?, MOST_VARIABLES)?;
    let sizes = workspace
        .get(1..1 + variables)?
        .iter()
        .map(|&size| number_within(size, MOST_SIZE))
        .collect::<Option<Vec<usize>>>()?;
    let features = Features::new(sizes);
    (features.count() <= MOST_FEATURES).then_some(features)
}

fn number_within(word: u64, most: usize) -> Option<usize> {
    let number = usize::try_from(word).ok()?;
    (1..=most).contains(&number).then_some(number)
}

fn state_of<N: Numbering>(features: &Features<N>, words: &[u64]) -> Option<Vec<usize>> {
    features
        .sizes()
        .iter()
        .zip(words)
        .map(|(&size, &word)| usize::try_from(word).ok().filter(|&value| value < size))
        .collect()
}

/// Whether weights separate; the least that do go to the first words of the room.
pub fn find<N: Numbering>(workspace: &[u64], room: &mut [u64]) -> Result<bool, Refusal> {
    let parts = Parts::<N>::of(workspace).ok_or(Refusal::Malformed)?;
    let width = parts.features.words();
    let weights = room.get_mut(..width).ok_or(Refusal::Small)?;
    let mut difference = vec![0; width];
    toggle_true(&parts.features, &parts.start, &mut difference);
    toggle_true(&parts.features, &parts.goal, &mut difference);
    parts.slots.reduce(&mut difference);
    let least = set::least(&difference);
    if let Some(index) = least {
        parts.slots.witness(index, weights);
    }
    Ok(least.is_some())
}

/// Toggles the features that are true in a state.
fn toggle_true<N: Numbering>(features: &Features<N>, state: &[usize], row: &mut [u64]) {
    let atom = |variable: usize| Atom {
        variable,
        value: state[variable],
    };
    for high in 0..state.len() {
        set::toggle(row, features.single(atom(high)));
        for low in 0..high {
            set::toggle(row, features.pair(atom(low), atom(high)));
        }
    }
}

//! Task files that take many passes to mend: all pairs are listed, and in each pass one of them is dropped, until none is left. Operators name every
//! variable, so one is idle until all pairs of its before state are gone, and then it drops those of its after state.

use super::write::{Entry, Parts};

/// A task file with a name for the table, and what it is once it is mended.
pub struct Chain {
    pub name: String,
    pub file: Vec<u8>,
    pub mended: Vec<u8>,
}

/// As many operators as two bytes can count.
const MOST_OPERATORS: usize = 16_383;

/// The sizes of two variables, near 4,096 features.
const ROWS: usize = 64;
const COLUMNS: usize = 62;

type State = Vec<usize>;

/// The states that operators lead to.
struct Walk {
    sizes: Vec<usize>,
    /// An operator leads from the start to each of these, all in the first pass.
    near: Vec<State>,
    /// An operator leads from the start to the first of these, and from each to the next, whose pairs are gone by then but for one.
    far: Vec<State>,
}

pub fn chains() -> Vec<Chain> {
    let most_more = MOST_OPERATORS - (ROWS * COLUMNS - 1);
    let last = [ROWS - 1, COLUMNS - 1];
    let some_ones = [[1; 20].as_slice(), &[0; 25]].concat();
    vec![
        chain("64 and 62", rows(), 0, &last),
        chain("64 and 62, the rest idle", rows(), most_more, &last),
        chain("45 of size 2", ones(&some_ones), 0, &some_ones),
        chain("45 of size 2, 200 more", ones(&some_ones), 200, &some_ones),
    ]
}

/// A chain with so many operators more than the walk needs: they lead from one state to itself.
fn chain(name: &str, walk: Walk, more: usize, state: &[usize]) -> Chain {
    let start = vec![0; walk.sizes.len()];
    let mut operators = operators_of(&walk, &start);
    operators.extend(vec![operator(state, state); more]);
    let mut parts = Parts {
        pairs: all_pairs(&walk.sizes),
        goal: start.clone(),
        start,
        sizes: walk.sizes,
        operators,
    };
    let file = parts.file();
    parts.pairs.clear();
    Chain {
        name: format!("mending a chain, {name}"),
        file,
        mended: parts.file(),
    }
}

/// The steps of the walk stand in reverse, so that each of them waits for the next pass.
fn operators_of(walk: &Walk, start: &State) -> Vec<Vec<Entry>> {
    let near = walk.near.iter().map(|state| operator(start, state));
    let befores = std::iter::once(start).chain(&walk.far);
    let steps: Vec<Vec<Entry>> = befores
        .zip(&walk.far)
        .map(|(before, after)| operator(before, after))
        .collect();
    near.chain(steps.into_iter().rev()).collect()
}

fn operator(before: &[usize], after: &[usize]) -> Vec<Entry> {
    let values = before.iter().zip(after);
    values
        .enumerate()
        .map(|(variable, (&before, &after))| (variable, before, after))
        .collect()
}

fn all_pairs(sizes: &[usize]) -> Vec<usize> {
    let atoms: usize = sizes.iter().sum();
    let squares: usize = sizes.iter().map(|size| size * size).sum();
    (atoms..atoms + (atoms * atoms - squares) / 2).collect()
}

/// All states of two variables but for the start, row by row.
fn rows() -> Walk {
    let states = (0..ROWS).flat_map(|row| (0..COLUMNS).map(move |column| vec![row, column]));
    Walk {
        sizes: vec![ROWS, COLUMNS],
        near: vec![],
        far: states.skip(1).collect(),
    }
}

/// The states of variables of size 2 with one 1, and then those with two: first those with both where a given state has its ones, then with one there.
fn ones(given: &[usize]) -> Walk {
    let variables = given.len();
    let state = |ones: &[usize]| {
        let values = (0..variables).map(|variable| usize::from(ones.contains(&variable)));
        values.collect::<State>()
    };
    let two = (0..variables).flat_map(|low| (low + 1..variables).map(move |high| [low, high]));
    let mut two: Vec<[usize; 2]> = two.collect();
    two.sort_by_key(|[low, high]| 2 - given[*low] - given[*high]);
    Walk {
        sizes: vec![2; variables],
        near: (0..variables).map(|one| state(&[one])).collect(),
        far: two.iter().map(|ones| state(ones)).collect(),
    }
}

//! Partial task files: orders that name some variables, and the full tasks built from them.

use crate::features::{count_features, Atom, Feature, Features, State};
use crate::kinds::Kind;
use crate::limits::{Limits, MOST_VALUES, MOST_VARIABLES, NOW};
use crate::numbers::{encode, Reader};
use crate::operators::{Entry, Operator, Pairing};
use crate::refusal::Refusal;
use crate::task::{judge_pairs, read_operators, read_state, tail_numbers, Task};

/// A partial task as its file lists it; values and pairs count by its own sizes.
#[derive(Clone, Debug, PartialEq, Eq)]
pub struct Partial {
    pub sizes: Vec<usize>,
    pub start: State,
    /// The goal value of each named variable; a silent one has none.
    pub goal: Vec<Option<usize>>,
    pub pairs: Vec<usize>,
    pub operators: Vec<Operator>,
}

/// Which forgetting operators the built task goes without.
#[derive(Clone, Copy, Debug, PartialEq, Eq)]
pub enum LeftOut {
    Nothing,
    /// By the letter of source 002's section 5.2.
    ByLetter,
    /// By the letter, and all those of named variables.
    Lean,
}

/// The sizes of the built task: each variable has one value more, "unknown", its highest.
pub fn built_sizes(sizes: &[usize]) -> Vec<usize> {
    sizes.iter().map(|size| size + 1).collect()
}

/// The operator by which a variable's value becomes unknown.
fn forgetting(atom: Atom, unknown: usize) -> Operator {
    Operator {
        entries: [Entry {
            variable: atom.variable,
            before: atom.value,
            after: unknown,
        }]
        .into(),
    }
}

impl Partial {
    pub fn named(&self, variable: usize) -> bool {
        self.goal[variable].is_some()
    }

    /// A mark for each variable: 0 for silent, 1 for named.
    pub fn marks(&self) -> Vec<u8> {
        let mark = |goal: &Option<usize>| u8::from(goal.is_some());
        self.goal.iter().map(mark).collect()
    }

    /// The atoms that the order asks for.
    pub fn goal_atoms(&self) -> Vec<Atom> {
        let named = self.goal.iter().enumerate();
        named
            .filter_map(|(variable, goal)| goal.map(|value| Atom { variable, value }))
            .collect()
    }

    /// Whether a state, of the file's own values, meets the order.
    pub fn met_by(&self, state: &[usize]) -> bool {
        let mut asked = self.goal_atoms().into_iter();
        asked.all(|atom| state[atom.variable] == atom.value)
    }

    /// The numbers of the partial task file, in order.
    pub fn numbers(&self) -> Vec<usize> {
        let mut numbers = vec![self.sizes.len()];
        numbers.extend(&self.sizes);
        numbers.extend(self.marks().into_iter().map(usize::from));
        numbers.extend(&self.start);
        numbers.extend(self.goal.iter().flatten());
        numbers.extend(tail_numbers(Kind::Old, &self.pairs, &self.operators));
        numbers
    }

    pub fn file(&self) -> Vec<u8> {
        encode(&self.numbers())
    }

    /// The listed pairs under the numbers of the built task: each keeps its two atoms.
    fn built_pairs(&self) -> Vec<usize> {
        let own = Features::new(&self.sizes);
        let built = Features::new(&built_sizes(&self.sizes));
        let renumbered = |pair: &usize| match own.feature(*pair) {
            Feature::Mixed(one, other) => built.mixed(one, other),
            Feature::Single(_) => None,
        };
        self.pairs.iter().filter_map(renumbered).collect()
    }

    /// Section 5.2 by the letter, among the file's own pairs. Its first condition: "unknown" is
    /// the variable's goal, so it is silent. Its second: the value is exclusive with a goal fact;
    /// "unknown" is in no pair. Its third is empty: no operator has "unknown" before.
    fn left_out_by_letter(&self, own: &Pairing, atom: Atom) -> bool {
        let mut goals = self.goal_atoms().into_iter();
        !self.named(atom.variable) && goals.any(|goal| own.paired(atom, goal))
    }

    fn left_out(&self, own: &Pairing, atom: Atom, left_out: LeftOut) -> bool {
        match left_out {
            LeftOut::Nothing => false,
            LeftOut::ByLetter => self.left_out_by_letter(own, atom),
            LeftOut::Lean => self.named(atom.variable) || self.left_out_by_letter(own, atom),
        }
    }

    /// The forgetting operators that are kept, by variable and value.
    pub fn forgetting_operators(&self, left_out: LeftOut) -> Vec<Operator> {
        let own = Pairing::new(&self.sizes, &self.pairs);
        let mut operators = Vec::new();
        for (variable, size) in self.sizes.iter().enumerate() {
            let atoms = (0..*size).map(|value| Atom { variable, value });
            let kept = atoms.filter(|atom| !self.left_out(&own, *atom, left_out));
            operators.extend(kept.map(|atom| forgetting(atom, *size)));
        }
        operators
    }

    /// The built task, not yet judged: the file's operators, then the forgetting ones kept.
    pub fn built(&self, left_out: LeftOut) -> Task {
        self.clone().into_built(left_out)
    }

    /// The same, without a copy of the operators, which may be millions.
    pub fn into_built(self, left_out: LeftOut) -> Task {
        let ends = self.goal.iter().zip(&self.sizes);
        let goal = ends.map(|(goal, size)| goal.unwrap_or(*size)).collect();
        let (pairs, forgetting) = (self.built_pairs(), self.forgetting_operators(left_out));
        let mut operators = self.operators;
        operators.extend(forgetting);
        Task {
            sizes: built_sizes(&self.sizes),
            start: self.start,
            goal,
            pairs,
            operators,
        }
    }
}

/// Reads a partial file up to its last byte; pairs aren't judged yet.
pub fn read_partial(bytes: &[u8]) -> Result<Partial, Refusal> {
    partial_from(&mut Reader::new(bytes))
}

/// The same by the reader's limits.
pub fn partial_from(reader: &mut Reader) -> Result<Partial, Refusal> {
    let sizes = read_sizes(reader)?;
    let mut marks = Vec::new();
    for _ in &sizes {
        marks.push(reader.number_within(&(0..2), Refusal::Range)?);
    }
    let start = read_state(reader, &sizes)?;
    let mut goal = Vec::new();
    for (mark, size) in marks.iter().zip(&sizes) {
        goal.push(match mark {
            0 => None,
            _ => Some(reader.number_within(&(0..*size), Refusal::Range)?),
        });
    }
    let singles: usize = sizes.iter().sum();
    // Partial files have one kind.
    let pairs = reader.list(Kind::Old, &(singles..count_features(&sizes)))?;
    let operators = read_operators(reader, &sizes)?;
    reader.finish()?;
    Ok(Partial {
        sizes,
        start,
        goal,
        pairs,
        operators,
    })
}

/// Sizes whose built ones keep the limits.
fn read_sizes(reader: &mut Reader) -> Result<Vec<usize>, Refusal> {
    let variables = reader.number_within(&(1..MOST_VARIABLES + 1), Refusal::Limit)?;
    let mut sizes = Vec::new();
    for _ in 0..variables {
        sizes.push(reader.number_within(&(1..MOST_VALUES), Refusal::Limit)?);
    }
    judge_limits(reader.limits, &sizes)?;
    Ok(sizes)
}

/// The limits of the built task's sizes and features.
fn judge_limits(limits: Limits, sizes: &[usize]) -> Result<(), Refusal> {
    let built = built_sizes(sizes);
    let fits = built.iter().all(|size| *size <= MOST_VALUES);
    if fits && count_features(&built) <= limits.features {
        Ok(())
    } else {
        Err(Refusal::Limit)
    }
}

/// The built task of a partial file, wholly judged: the count of operators first, then pairs.
pub fn read_built(bytes: &[u8], left_out: LeftOut) -> Result<Task, Refusal> {
    built_from(&mut Reader::new(bytes), left_out)
}

/// The same by the reader's limits.
pub fn built_from(reader: &mut Reader, left_out: LeftOut) -> Result<Task, Refusal> {
    let built = partial_from(reader)?.into_built(left_out);
    if built.operators.len() > reader.limits.largest() {
        return Err(Refusal::Limit);
    }
    judge_pairs(&built)?;
    Ok(built)
}

/// The partial task that names those variables of an accepted task whose marks are 1.
pub fn silenced(task: &Task, marks: &[u8]) -> Result<Partial, Refusal> {
    if marks.len() != task.sizes.len() || marks.iter().any(|mark| *mark > 1) {
        return Err(Refusal::Range);
    }
    judge_limits(NOW, &task.sizes)?;
    let ends = task.goal.iter().zip(marks);
    Ok(Partial {
        sizes: task.sizes.clone(),
        start: task.start.clone(),
        goal: ends
            .map(|(value, mark)| (*mark == 1).then_some(*value))
            .collect(),
        pairs: task.pairs.clone(),
        operators: task.operators.clone(),
    })
}

//! Bays: files, the task of a bay, and moves on the grid itself. Labels are lots and may repeat.

use crate::features::{Atom, Features};
use crate::limits::{LEAST_SLOTS, MOST_SIDE};
use crate::numbers::{encode, Reader};
use crate::operators::{Entry, Operator};
use crate::refusal::Refusal;
use crate::task::Task;

/// The gap's label; any other is the lot of a pallet.
pub const GAP: usize = 0;

/// A bay with its labels row by row.
#[derive(Clone, Debug, PartialEq, Eq)]
pub struct Bay {
    pub rows: usize,
    pub columns: usize,
    pub start: Vec<usize>,
    pub goal: Vec<usize>,
}

/// Reads a bay file; the first fault in the documents' order decides.
pub fn read_bay(bytes: &[u8]) -> Result<Bay, Refusal> {
    bay_from(&mut Reader::new(bytes))
}

/// The same by the reader's limits.
pub fn bay_from(reader: &mut Reader) -> Result<Bay, Refusal> {
    let bay = lists_from(reader)?;
    bay.judge_gaps()?;
    bay.judge_lots()?;
    Ok(bay)
}

/// Reads a bay file up to its last byte; what its lists hold isn't judged yet.
pub fn lists_from(reader: &mut Reader) -> Result<Bay, Refusal> {
    let rows = reader.number_within(&(1..MOST_SIDE + 1), Refusal::Limit)?;
    let columns = reader.number_within(&(1..MOST_SIDE + 1), Refusal::Limit)?;
    let slots = rows * columns;
    if !(LEAST_SLOTS..=reader.limits.slots).contains(&slots) {
        return Err(Refusal::Limit);
    }
    let start = read_labels(reader, slots)?;
    let goal = read_labels(reader, slots)?;
    reader.finish()?;
    Ok(Bay {
        rows,
        columns,
        start,
        goal,
    })
}

fn read_labels(reader: &mut Reader, slots: usize) -> Result<Vec<usize>, Refusal> {
    (0..slots)
        .map(|_| reader.number_within(&(0..slots), Refusal::Range))
        .collect()
}

/// How often a list holds a label.
pub fn times(labels: &[usize], label: usize) -> usize {
    labels.iter().filter(|each| **each == label).count()
}

impl Bay {
    pub fn slots(&self) -> usize {
        self.rows * self.columns
    }

    /// The gap occurs once, in the start and then in the goal.
    pub fn judge_gaps(&self) -> Result<(), Refusal> {
        for labels in [&self.start, &self.goal] {
            if times(labels, GAP) != 1 {
                return Err(Refusal::Gap);
            }
        }
        Ok(())
    }

    /// Start and goal hold each label equally often.
    pub fn judge_lots(&self) -> Result<(), Refusal> {
        if (0..self.slots()).all(|label| self.equally_often(label)) {
            Ok(())
        } else {
            Err(Refusal::Lots)
        }
    }

    pub fn equally_often(&self, label: usize) -> bool {
        times(&self.start, label) == times(&self.goal, label)
    }

    /// The labels that occur as often as asked, judged in the start: the goal holds the same.
    pub fn labels(&self, asked: impl Fn(usize) -> bool) -> Vec<usize> {
        let mut labels: Vec<usize> = (0..self.slots()).collect();
        labels.retain(|label| asked(times(&self.start, *label)));
        labels
    }

    /// Whether two pallets are alike.
    pub fn has_alike(&self) -> bool {
        !self.labels(|times| times > 1).is_empty()
    }

    /// The numbers of the bay file, in order.
    pub fn numbers(&self) -> Vec<usize> {
        let mut numbers = vec![self.rows, self.columns];
        numbers.extend(&self.start);
        numbers.extend(&self.goal);
        numbers
    }

    pub fn file(&self) -> Vec<u8> {
        encode(&self.numbers())
    }

    /// Row and column; slots in one line of numbers need not touch on the grid.
    pub fn place(&self, slot: usize) -> (usize, usize) {
        (slot / self.columns, slot % self.columns)
    }

    pub fn neighbours(&self, slot: usize) -> Vec<usize> {
        let (row, column) = self.place(slot);
        (0..self.slots())
            .filter(|other| {
                let (other_row, other_column) = self.place(*other);
                row.abs_diff(other_row) + column.abs_diff(other_column) == 1
            })
            .collect()
    }

    /// The labels after each move: a neighbouring pallet slides into the gap.
    pub fn moves(&self, labels: &[usize]) -> Vec<Vec<usize>> {
        let gap = labels.iter().position(|label| *label == GAP);
        let gap = gap.expect("a gap in every bay");
        let slide = |neighbour| {
            let mut moved = labels.to_vec();
            moved.swap(gap, neighbour);
            moved
        };
        self.neighbours(gap).into_iter().map(slide).collect()
    }

    /// The features that put one of these labels in two slots.
    pub fn pairs(&self, labels: &[usize]) -> Vec<usize> {
        let slots = self.slots();
        let features = Features::new(&vec![slots; slots]);
        let mut pairs = Vec::new();
        for label in labels {
            let atom = |variable| Atom {
                variable,
                value: *label,
            };
            for slot in 0..slots {
                pairs.extend(
                    (slot + 1..slots).filter_map(|other| features.mixed(atom(slot), atom(other))),
                );
            }
        }
        pairs.sort_unstable();
        pairs
    }

    /// The operator that slides a label into the gap.
    fn slide(gap: usize, neighbour: usize, label: usize) -> Operator {
        let mut entries = vec![
            Entry {
                variable: gap,
                before: GAP,
                after: label,
            },
            Entry {
                variable: neighbour,
                before: label,
                after: GAP,
            },
        ];
        entries.sort_by_key(|entry| entry.variable);
        entries.into()
    }

    /// The operators that slide these labels; the gap itself never slides.
    pub fn operators(&self, labels: &[usize]) -> Vec<Operator> {
        let mut operators = Vec::new();
        for gap in 0..self.slots() {
            for neighbour in self.neighbours(gap) {
                let pallets = labels.iter().filter(|label| **label != GAP);
                operators.extend(pallets.map(|label| Bay::slide(gap, neighbour, *label)));
            }
        }
        operators
    }

    /// The bay's task: pairs of each label that occurs once, operators for each that occurs.
    pub fn task(&self) -> Task {
        let slots = self.slots();
        Task {
            sizes: vec![slots; slots],
            start: self.start.clone(),
            goal: self.goal.clone(),
            pairs: self.pairs(&self.labels(|times| times == 1)),
            operators: self.operators(&self.labels(|times| times > 0)),
        }
    }
}

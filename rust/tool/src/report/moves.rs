//! The moves of a bay, and what each of them changes.

use super::change::Change;
use super::listed::Listed;
use crate::bay::{Bay, GAP};
use crate::features::Atom;

/// One pallet sliding between two neighbouring slots; the way back changes the same features.
#[derive(Clone, Copy)]
pub struct Move {
    pub pallet: usize,
    /// Where the gap is at first.
    pub gap: usize,
    /// Where the pallet is at first.
    pub from: usize,
}

impl Move {
    /// The arrangement after the move.
    pub fn applied(&self, state: &[usize]) -> Vec<usize> {
        let mut later = state.to_vec();
        later.swap(self.gap, self.from);
        later
    }

    /// Before and after the move, what the two slots hold.
    pub fn change(&self) -> Change {
        let hold = |gap, from| vec![Atom::new(self.gap, gap), Atom::new(self.from, from)];
        Change {
            before: hold(GAP, self.pallet),
            after: hold(self.pallet, GAP),
        }
    }
}

/// All moves of a bay, without their ways back.
pub fn all(bay: &Bay) -> Vec<Move> {
    let mut moves = Vec::new();
    for (gap, from) in bay.neighbours() {
        let pallets = bay.pallets().into_iter();
        moves.extend(pallets.map(|pallet| Move { pallet, gap, from }));
    }
    moves
}

/// The move from the start that changes the most listed features, to be shown in full.
pub fn telling(bay: &Bay, listed: &Listed) -> Option<Move> {
    let hole = bay.start.iter().position(|&label| label == GAP)?;
    let pairs = bay.neighbours().into_iter();
    let beside = pairs.filter_map(|(low, high)| match hole {
        _ if hole == low => Some(high),
        _ if hole == high => Some(low),
        _ => None,
    });
    let moves = beside.map(|from| Move {
        pallet: bay.start[from],
        gap: hole,
        from,
    });
    moves.max_by_key(|step| listed.changed(&bay.start, &step.applied(&bay.start)))
}

//! Breadth-first search, to hold answers against what can be reached.

use crate::operators::Operator;
use crate::partial::Partial;
use crate::task::Task;
use std::collections::{HashSet, VecDeque};

/// Whether a state can be reached by the given moves.
pub fn reaches<Moves>(start: &[usize], goal: &[usize], moves: Moves) -> bool
where
    Moves: Fn(&[usize]) -> Vec<Vec<usize>>,
{
    reached(start, moves).contains(goal)
}

/// All states that can be reached by the given moves.
pub fn reached<Moves>(start: &[usize], moves: Moves) -> HashSet<Vec<usize>>
where
    Moves: Fn(&[usize]) -> Vec<Vec<usize>>,
{
    let mut seen = HashSet::from([start.to_vec()]);
    let mut waiting = VecDeque::from([start.to_vec()]);
    while let Some(state) = waiting.pop_front() {
        for next in moves(&state) {
            if seen.insert(next.clone()) {
                waiting.push_back(next);
            }
        }
    }
    seen
}

/// The states that one operator of a task leads to.
pub fn successors(task: &Task, state: &[usize]) -> Vec<Vec<usize>> {
    led_to(&task.operators, state)
}

fn led_to(operators: &[Operator], state: &[usize]) -> Vec<Vec<usize>> {
    operators
        .iter()
        .filter(|operator| operator.applies(state))
        .map(|operator| operator.applied(state))
        .collect()
}

pub fn solvable(task: &Task) -> bool {
    reaches(&task.start, &task.goal, |state| successors(task, state))
}

/// The states that a partial file's own operators lead to, without any forgetting.
pub fn own_states(partial: &Partial) -> HashSet<Vec<usize>> {
    reached(&partial.start, |state| led_to(&partial.operators, state))
}

/// Whether a partial file's own operators lead to a state that meets its order.
pub fn can_meet(partial: &Partial) -> bool {
    own_states(partial)
        .iter()
        .any(|state| partial.met_by(state))
}

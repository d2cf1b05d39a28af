//! Silent slots that become unknown: the steps that the proof of an order with such slots allows
//! beside the moves.

use super::change::Change;
use crate::bay::Bay;
use crate::features::Atom;

/// One silent slot that holds a label and becomes unknown.
#[derive(Clone, Copy)]
pub struct Forgetting {
    pub slot: usize,
    pub label: usize,
}

impl Forgetting {
    pub fn change(&self, bay: &Bay) -> Change {
        Change {
            before: vec![Atom::new(self.slot, self.label)],
            after: vec![Atom::new(self.slot, bay.unknown())],
        }
    }
}

/// All of them: what the order names for one slot, and is there once only, is never in another when
/// the order is met, so it need not be forgotten there.
pub fn all(bay: &Bay) -> Vec<Forgetting> {
    let settled = |label: usize, count: usize| count == 1 && bay.goal.contains(&Some(label));
    let mut steps = Vec::new();
    for slot in bay.silent() {
        let held = bay.held().into_iter();
        let open = held.filter(|(label, count)| !settled(*label, *count));
        steps.extend(open.map(|(label, _)| Forgetting { slot, label }));
    }
    steps
}

#[cfg(test)]
mod tests {
    use super::*;

    fn bay(start: [usize; 4]) -> Bay {
        Bay {
            rows: 1,
            columns: 4,
            start: start.to_vec(),
            goal: vec![Some(2), None, Some(0), None],
            letters: Vec::new(),
        }
    }

    fn shown(steps: &[Forgetting]) -> Vec<(usize, usize)> {
        steps.iter().map(|step| (step.slot, step.label)).collect()
    }

    #[test]
    fn only_what_is_left_is_forgotten_in_silent_slots() {
        let bay = bay([0, 1, 2, 3]);
        let steps = all(&bay);
        assert_eq!(shown(&steps), [(1, 1), (1, 3), (3, 1), (3, 3)]);
        let change = steps[1].change(&bay);
        assert_eq!(change.before, [Atom::new(1, 3)]);
        assert_eq!(change.after, [Atom::new(1, 4)]);
        // Elsewhere anything can be but the label itself, and it may be unknown.
        assert_eq!(change.elsewhere(&bay), [0, 1, 2, 4]);
    }

    #[test]
    fn one_of_many_can_be_forgotten_though_it_is_named() {
        let bay = bay([2, 2, 0, 1]);
        let steps = all(&bay);
        assert_eq!(shown(&steps), [(1, 1), (1, 2), (3, 1), (3, 2)]);
        // Elsewhere there is another 2, and nowhere a 3.
        assert_eq!(steps[1].change(&bay).elsewhere(&bay), [0, 1, 2, 4]);
        assert_eq!(steps[0].change(&bay).elsewhere(&bay), [0, 2, 4]);
    }
}

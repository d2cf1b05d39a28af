//! States in which two unnamed values are paired with each other count. One task whose answer depends on such a state, worked out by hand.

use reference::feature_set::FeatureSet;
use reference::operators::{Entry, Operator};
use reference::separation::{verdict, Verdict};
use reference::task::{read_task, Task};
use reference::workspace::Workspace;

/// Three variables of size 2, from 010 to 000, and the operator (1: 0 to 1). Pair 14 leaves digit 2 only the value 1, and pair 11 pairs that with digit
/// 0's value 0: the operator is judged from 101, and from 001, which holds pair 11.
fn task() -> Task {
    let entry = Entry {
        variable: 1,
        before: 0,
        after: 1,
    };
    Task {
        sizes: vec![2, 2, 2],
        start: vec![0, 1, 0],
        goal: vec![0, 0, 0],
        pairs: vec![11, 14],
        operators: vec![Operator {
            entries: [entry].into(),
        }],
    }
}

#[test]
fn the_task_is_accepted() {
    assert_eq!(read_task(&task().file()), Ok(task()));
}

/// The ends differ in {2,3,6,7,14,16}, and from 001 the operator changes {2,3,6,7,15,17}. Below 14 these are alike, so nothing below 14 separates, and 14
/// alone does. From 101 the operator changes {2,3,8,9,15,17}: were that the only state, {6} would be the least.
#[test]
fn the_least_weights() {
    let found = Workspace::of(&task()).find().expect("something separates");
    assert_eq!(found.members(), [14]);
}

#[test]
fn weights_that_only_a_paired_state_breaks() {
    let weights = FeatureSet::of(18, &[6]);
    assert_eq!(verdict(&task(), &weights), Verdict::Operator(0));
}

//! What is drawn: bays and pair lists of all kinds, so that tests and comparisons over them say
//! something.

use reference::bay::{read_bay, times, Bay, GAP};
use reference::mending::{dropped, first_fault, mended, PairFault};
use reference::refusal::Refusal;
use reference::sample::bays::{bay, mislabel, shapes};
use reference::sample::handmade::{handmade_task, paired_sizes};
use reference::sample::tasks::{MEDIUM, SMALL, WIDE};
use reference::sample::Generator;
use reference::task::Task;

const DRAWN: usize = 400;

/// The bays drawn for each shape that has more slots than can be tried one by one.
fn drawn(damage: impl Fn(&mut Generator, &mut Bay)) -> Vec<Vec<Bay>> {
    let mut generator = Generator::new(0x5A3B);
    let mut shapes = shapes();
    shapes.retain(|(rows, columns)| rows * columns > 4);
    let mut draw = |shape| {
        let mut bay = bay(&mut generator, shape);
        damage(&mut generator, &mut bay);
        bay
    };
    let draws = |shape| (0..DRAWN).map(|_| draw(shape)).collect();
    shapes.into_iter().map(draws).collect()
}

/// Each kind has one in forty or more of what is drawn.
fn has_all<Drawn>(drawn: &[Drawn], kinds: &[fn(&Drawn) -> bool]) {
    for (place, kind) in kinds.iter().enumerate() {
        let count = drawn.iter().filter(|each| kind(each)).count();
        assert!(count >= DRAWN / 40, "{count} of kind {place}");
    }
}

#[test]
fn good_bays_of_all_kinds_are_drawn() {
    for bays in drawn(|_, _| {}) {
        assert!(bays.iter().all(|bay| read_bay(&bay.file()).is_ok()));
        has_all(
            &bays,
            &[
                |bay| !bay.has_alike(),
                // One lot alone.
                |bay| bay.labels(|times| times > 0).len() == 2,
                // Several lots, none of a single pallet.
                |bay| {
                    bay.labels(|times| times > 1).len() > 1
                        && bay.labels(|times| times == 1) == [GAP]
                },
                // A lot of a single pallet beside one of several.
                |bay| bay.has_alike() && bay.labels(|times| times == 1).len() > 1,
            ],
        );
    }
}

/// How many gaps start and goal have.
fn gaps(bay: &Bay) -> [usize; 2] {
    [times(&bay.start, GAP), times(&bay.goal, GAP)]
}

#[test]
fn labels_with_all_faults_are_drawn() {
    for bays in drawn(mislabel) {
        has_all(
            &bays,
            &[
                |bay| gaps(bay)[0] == 0,
                |bay| gaps(bay)[0] > 1,
                |bay| gaps(bay) == [1, 0],
                |bay| gaps(bay) == [1, 2],
                |bay| bay.judge_gaps().is_err() && bay.judge_lots().is_ok(),
                |bay| read_bay(&bay.file()) == Err(Refusal::Lots),
            ],
        );
    }
}

/// A pair is dropped that was at fault only once others were dropped.
fn has_chain(task: &Task) -> bool {
    let pairing = task.pairing();
    let mut at_once = pairing.held(&task.start);
    for operator in &task.operators {
        at_once.extend(pairing.unclosed(operator));
    }
    let dropped = dropped(task).members();
    dropped.iter().any(|pair| !at_once.contains(pair))
}

/// An operator that was idle acts once pairs are dropped.
fn wakes_operators(task: &Task) -> bool {
    let (before, after) = (task.pairing(), mended(task).pairing());
    let woken = |operator| before.idle(operator) && !after.idle(operator);
    task.operators.iter().any(woken)
}

#[test]
fn pair_lists_of_all_kinds_are_drawn() {
    let mut generator = Generator::new(0x5A3C);
    for scale in [SMALL, MEDIUM, WIDE] {
        let mut draw = || {
            let sizes = paired_sizes(&mut generator, scale);
            handmade_task(&mut generator, &sizes, scale.most_operators)
        };
        let tasks: Vec<Task> = (0..DRAWN).map(|_| draw()).collect();
        has_all(
            &tasks,
            &[
                |task| task.pairs.is_empty(),
                |task| !task.pairs.is_empty() && first_fault(task).is_none(),
                |task| matches!(first_fault(task), Some(PairFault::Held(_))),
                |task| {
                    let fault = first_fault(task);
                    matches!(fault, Some(PairFault::Unclosed { operator: 0, .. }))
                },
                |task| {
                    let fault = first_fault(task);
                    matches!(fault, Some(PairFault::Unclosed { operator: 1.., .. }))
                },
                |task| !task.pairs.is_empty() && mended(task).pairs.is_empty(),
                |task| !mended(task).pairs.is_empty() && first_fault(task).is_some(),
                // Nearly good.
                |task| (1..4).contains(&dropped(task).members().len()) && task.pairs.len() > 8,
                has_chain,
                wakes_operators,
            ],
        );
    }
}

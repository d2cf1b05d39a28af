//! Answers against breadth-first search, and bays against moves on the grid.

use reference::bay::{times, Bay, GAP};
use reference::feature_set::FeatureSet;
use reference::sample::bays::{arrangements, bay, every_list, order_weights, shapes, shuffled};
use reference::sample::tasks::{loose_weights, meeting_weights, scaled_task, SMALL, TINY};
use reference::sample::Generator;
use reference::search::{reached, solvable, successors};
use reference::separation::{separates, verdict, Verdict};
use reference::task::{read_task, Task};
use reference::workspace::Workspace;
use std::collections::HashSet;

fn answer(task: &Task) -> Option<FeatureSet> {
    Workspace::of(task).find()
}

#[test]
fn separated_tasks_have_no_plan() {
    let mut generator = Generator::new(0x50A1);
    let mut separated = 0;
    for round in 0..2_000 {
        let scale = if round % 2 == 0 { TINY } else { SMALL };
        let task = scaled_task(&mut generator, scale);
        if let Some(weights) = answer(&task) {
            assert_eq!(verdict(&task, &weights), Verdict::Accepted);
            assert!(!solvable(&task), "{task:?}");
            separated += 1;
        }
    }
    assert!(separated > 400, "{separated}");
}

#[test]
fn accepted_weights_leave_no_plan() {
    let mut generator = Generator::new(0x50A2);
    let mut accepted = 0;
    for round in 0..3_000 {
        let task = scaled_task(&mut generator, SMALL);
        let weights = if round % 2 == 0 {
            meeting_weights(&mut generator, &task)
        } else {
            loose_weights(&mut generator, task.pairing().features.count())
        };
        if separates(&task, &weights) {
            assert!(!solvable(&task), "{task:?}");
            accepted += 1;
        }
    }
    assert!(accepted > 300, "{accepted}");
}

/// Listed pairs of an accepted task are true in no state that can be reached.
#[test]
fn listed_pairs_are_never_reached() {
    let mut generator = Generator::new(0x50A3);
    for _ in 0..600 {
        let task = scaled_task(&mut generator, SMALL);
        let pairing = task.pairing();
        for state in reached(&task.start, |state| successors(&task, state)) {
            assert!(!pairing.held_by(&state), "{task:?}");
            for operator in &task.operators {
                assert!(!(pairing.idle(operator) && operator.applies(&state)));
            }
        }
    }
}

/// Holds one operator against one move, from one state.
fn judge_step(bay: &Bay, task: &Task, labels: &[usize]) {
    let moved: HashSet<_> = bay.moves(labels).into_iter().collect();
    let led: HashSet<_> = successors(task, labels).into_iter().collect();
    assert_eq!(moved, led, "{bay:?} {labels:?}");
    assert_eq!(moved.len(), bay.moves(labels).len());
}

#[test]
fn operators_of_bays_are_moves() {
    let mut generator = Generator::new(0x50A4);
    for shape in shapes() {
        for _ in 0..40 {
            let bay = bay(&mut generator, shape);
            let labels = shuffled(&mut generator, &bay.start);
            judge_step(&bay, &bay.task(), &labels);
        }
    }
}

/// How many goals were judged that moves reach, and that they miss.
#[derive(Default, Debug, PartialEq)]
struct Goals {
    reached: usize,
    missed: usize,
}

impl Goals {
    /// Every goal that holds the start's labels, each as often, by moves, operators and weights.
    ///
    /// Weights prove each miss: on a grid by the order of different labels and the gap's colour, in
    /// a line by "the k-th pallet is of this lot", which the sides of the gap tell.
    fn judge(&mut self, bay: &Bay) {
        let task = bay.task();
        let within = reached(&bay.start, |labels| bay.moves(labels));
        let led = reached(&bay.start, |labels| successors(&task, labels));
        assert_eq!(within, led, "{bay:?}");
        // One workspace is enough: the goals differ in its header only.
        let mut workspace = Workspace::of(&task);
        for goal in arrangements(&bay.start) {
            judge_step(bay, &task, &goal);
            let reachable = within.contains(&goal);
            workspace.goal = goal;
            let none = workspace.find().is_none();
            assert_eq!(none, reachable, "{bay:?} {:?}", workspace.goal);
            self.reached += usize::from(reachable);
            self.missed += usize::from(!reachable);
        }
    }
}

/// Every asked start of these shapes with every goal: all labels different, and some alike.
fn all_goals(shapes: &[(usize, usize)], asked: impl Fn(&[usize]) -> bool) -> [Goals; 2] {
    let mut goals = [Goals::default(), Goals::default()];
    for (rows, columns) in shapes {
        for start in every_list(rows * columns) {
            let bay = Bay {
                rows: *rows,
                columns: *columns,
                goal: start.clone(),
                start,
            };
            if asked(&bay.start) {
                goals[usize::from(bay.has_alike())].judge(&bay);
            }
        }
    }
    goals
}

fn has_one_gap(labels: &[usize]) -> bool {
    times(labels, GAP) == 1
}

fn goals(reached: usize, missed: usize) -> Goals {
    Goals { reached, missed }
}

/// In a line the gap goes everywhere and the pallets keep their order.
#[test]
fn all_lines_of_up_to_four_slots() {
    let two = all_goals(&[(1, 2), (2, 1)], has_one_gap);
    assert_eq!(two, [goals(2 * 2 * 2, 0), goals(0, 0)]);
    // Lots 1 1 and 2 2 from three starts each.
    let three = all_goals(&[(1, 3), (3, 1)], has_one_gap);
    let different = goals(2 * 6 * 3, 2 * 6 * (6 - 3));
    assert_eq!(three, [different, goals(2 * 2 * 3 * 3, 0)]);
    // Three lots of three, from four starts; six of two and one, from twelve.
    let four = all_goals(&[(1, 4), (4, 1)], has_one_gap);
    let different = goals(2 * 24 * 4, 2 * 24 * (24 - 4));
    let alike = goals(2 * (3 * 4 * 4 + 6 * 12 * 4), 2 * 6 * 12 * (12 - 4));
    assert_eq!(four, [different, alike]);
}

/// Round a square the pallets keep their cyclic order; two that are alike have but one.
#[test]
fn all_squares_of_four_slots() {
    let alike = goals(3 * 4 * 4 + 6 * 12 * 12, 0);
    let square = all_goals(&[(2, 2)], has_one_gap);
    assert_eq!(square, [goals(24 * 12, 24 * 12), alike]);
}

/// Two rows of three, the gap first and then lots 1, 2 and so on: five pallets are parted into such
/// lots in 541 ways, each with six slots for the gap.
#[test]
fn all_lots_of_six_slots() {
    let rising = |labels: &[usize]| {
        let next = |pair: &[usize]| pair[0] <= pair[1] && pair[1] <= pair[0] + 1;
        has_one_gap(labels) && labels[0] == GAP && labels.windows(2).all(next)
    };
    let [different, alike] = all_goals(&[(2, 3)], rising);
    assert_eq!(different, goals(360, 360));
    assert_eq!(alike, goals(6 * 541 - 720, 0));
}

#[test]
fn some_bays_of_five_and_six_slots() {
    let mut generator = Generator::new(0x50A7);
    let mut goals = Goals::default();
    for shape in [(1, 5), (6, 1), (3, 2)] {
        for _ in 0..6 {
            goals.judge(&bay(&mut generator, shape));
        }
    }
    assert!(goals.reached > 500 && goals.missed > 500, "{goals:?}");
}

#[test]
fn built_tasks_are_accepted() {
    let mut generator = Generator::new(0x50A5);
    for shape in shapes() {
        let task = bay(&mut generator, shape).task();
        assert_eq!(read_task(&task.file()), Ok(task));
    }
}

/// On a grid a goal is out of reach exactly when order and gap colour disagree, and none is where
/// two pallets are alike.
#[test]
fn grids_are_judged_by_order_and_colour() {
    let mut generator = Generator::new(0x50A6);
    for shape in [(2, 2), (2, 3), (3, 2)] {
        for _ in 0..4 {
            let start = bay(&mut generator, shape);
            let within = reached(&start.start, |labels| start.moves(labels));
            for _ in 0..6 {
                let bay = Bay {
                    goal: shuffled(&mut generator, &start.start),
                    ..start.clone()
                };
                let reachable = within.contains(&bay.goal);
                assert!(reachable || !bay.has_alike(), "{bay:?}");
                assert_eq!(separates(&bay.task(), &order_weights(&bay)), !reachable);
            }
        }
    }
}

#[test]
fn three_by_three() {
    let mut generator = Generator::new(0x50A8);
    let labels: Vec<usize> = (0..9).collect();
    let first = Bay {
        rows: 3,
        columns: 3,
        start: shuffled(&mut generator, &labels),
        goal: labels,
    };
    let within = reached(&first.start, |labels| first.moves(labels));
    assert_eq!(within.len(), 181_440);
    for _ in 0..20 {
        let bay = Bay {
            goal: shuffled(&mut generator, &first.start),
            ..first.clone()
        };
        let reachable = within.contains(&bay.goal);
        assert_eq!(separates(&bay.task(), &order_weights(&bay)), !reachable);
    }
    // One workspace is enough: the goals differ in its header only.
    let mut workspace = Workspace::of(&first.task());
    for _ in 0..2 {
        workspace.goal = shuffled(&mut generator, &first.start);
        let reachable = within.contains(&workspace.goal);
        assert_eq!(workspace.find().is_none(), reachable);
    }
}

/// In bays of sixteen slots nobody can try all moves: what a long walk leads to isn't separated, and
/// what it leads to but for two pallets that have changed places is.
#[test]
fn sixteen_slots() {
    let mut generator = Generator::new(0x50AA);
    for (rows, columns) in [(4, 4), (2, 8), (8, 2)] {
        let labels: Vec<usize> = (0..16).collect();
        let start = shuffled(&mut generator, &labels);
        let mut bay = Bay {
            rows,
            columns,
            goal: start.clone(),
            start,
        };
        for _ in 0..generator.between(200, 300) {
            bay.goal = generator.choose(&bay.moves(&bay.goal));
        }
        assert!(!separates(&bay.task(), &order_weights(&bay)));
        let pallets: Vec<usize> = (0..16).filter(|slot| bay.goal[*slot] != GAP).collect();
        bay.goal.swap(
            pallets[generator.below(7)],
            pallets[generator.between(7, 14)],
        );
        assert!(separates(&bay.task(), &order_weights(&bay)));
    }
}

/// Two lots of four stand in 9 * 70 ways, and each can be reached.
#[test]
fn three_by_three_in_two_lots() {
    let mut generator = Generator::new(0x50A9);
    let labels = [0, 1, 1, 1, 1, 2, 2, 2, 2];
    let bay = Bay {
        rows: 3,
        columns: 3,
        start: shuffled(&mut generator, &labels),
        goal: shuffled(&mut generator, &labels),
    };
    let task = bay.task();
    let within = reached(&bay.start, |labels| bay.moves(labels));
    assert_eq!(within.len(), 630);
    assert_eq!(
        within,
        reached(&bay.start, |labels| successors(&task, labels))
    );
    assert_eq!(answer(&task), None);
}

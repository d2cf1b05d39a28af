//! Partial files: built tasks worked out by hand, and what breadth-first search says of them.

use reference::bay::{times, Bay};
use reference::calls::{self, broken, denied, done};
use reference::feature_set::FeatureSet;
use reference::features::Features;
use reference::operators::{Entry, Operator};
use reference::partial::{read_built, read_partial, LeftOut, Partial};
use reference::sample::bays::arrangements;
use reference::sample::partials::{
    accepted_partial, completed, scaled_partial, silenced_bay, sizes,
};
use reference::sample::tasks::{meeting_weights, state, Scale, SMALL};
use reference::sample::Generator;
use reference::search::{can_meet, own_states, solvable};
use reference::separation::separates;
use reference::task::read_task;
use reference::weights::weight_file;
use reference::workspace::{words_due, Workspace};

const REFUSED: u64 = 3 << 32;

/// Two variables of size 2, from 00 to a 1 in front, pair 7, and case I's operator.
const FRONT: [u8; 18] = [2, 2, 2, 1, 0, 0, 0, 1, 1, 7, 1, 2, 0, 0, 1, 1, 0, 0];

/// Two variables of size 2 without operators, from 01 to a 0 behind; pair 4 excludes the start's
/// front value from that goal.
const BEHIND: [u8; 10] = [2, 2, 2, 0, 1, 0, 1, 0, 1, 4];

fn behind() -> Vec<u8> {
    [&BEHIND[..], &[0]].concat()
}

fn built(partial: &[u8], call: fn(&[u8], &mut [u8]) -> u64) -> Vec<u8> {
    let mut room = vec![0; 4_000];
    let length = call(partial, &mut room);
    assert!(length <= done(room.len()), "{length:#x}");
    room.truncate(length as usize);
    room
}

/// Sizes become 3; feature 7, both digits 1, becomes 6 + 3 + 1; the silent digit's goal is 2. After
/// the file's operator come both of the named digit and, by the letter, the silent digit's 0
/// alone: its 1 is paired with the goal.
#[test]
fn a_built_file() {
    let letter = [
        2, 3, 3, 0, 0, 1, 2, 1, 10, 4, 2, 0, 0, 1, 1, 0, 0, 1, 0, 0, 2, 1, 0, 1, 2, 1, 1, 0, 2,
    ];
    assert_eq!(built(&FRONT, calls::build_partial), letter);
    let lean = [
        2, 3, 3, 0, 0, 1, 2, 1, 10, 2, 2, 0, 0, 1, 1, 0, 0, 1, 1, 0, 2,
    ];
    assert_eq!(built(&FRONT, calls::build_partial_lean), lean);
}

/// The front digit's 0 may not be forgotten, so its atom parts the ends. The operators are the
/// front digit's 1, then the back digit's 0 and 1.
#[test]
fn verdicts_by_hand() {
    let judged: [(&[u8], u64); 7] = [
        (&[1, 0], done(0)),
        (&[1, 1], denied()),
        (&[0], denied()),
        (&[1, 2], broken(0)),
        (&[1, 3], broken(1)),
        (&[2, 0, 1], broken(0)),
        (&[1, 4], broken(2)),
    ];
    for (weights, expected) in judged {
        let answer = calls::check_partial(&behind(), weights);
        assert_eq!(answer, expected, "{weights:?}");
    }
    // Features count by the built task: there are 15.
    assert_eq!(calls::check_partial(&behind(), &[1, 14]), denied());
    assert_eq!(calls::check_partial(&behind(), &[1, 15]), REFUSED + 3);
    assert_eq!(calls::check_partial(&behind(), &[1]), REFUSED + 1);
    assert_eq!(calls::check_partial(&BEHIND, &[1]), REFUSED + 1);
}

/// An operator's number counts the file's operators first.
#[test]
fn the_first_forgetting_operator_follows_the_file() {
    let with_two = [&BEHIND[..], &[2, 1, 0, 1, 1, 1, 1, 1, 1]].concat();
    assert_eq!(calls::check_partial(&with_two, &[1, 2]), broken(2));
    assert_eq!(calls::check_partial(&with_two, &[1, 3]), broken(3));
}

/// Both digits are named and nothing is left out, but the goal, 11, holds pair 7, which is 10 in
/// the built task: no state that counts has it.
#[test]
fn a_named_goal_that_holds_a_pair() {
    let file = [2, 2, 2, 1, 1, 0, 0, 1, 1, 1, 7, 0];
    assert_eq!(calls::check_partial(&file, &[1, 10]), done(0));
}

fn refusal(bytes: &[u8]) -> u64 {
    read_built(bytes, LeftOut::ByLetter).map_or_else(|refusal| refusal.number(), |_| 0)
}

#[test]
fn numbers_are_judged_as_read() {
    let judged: [(&[u8], u64); 49] = [
        (&[], 1),
        (&[0x80], 1),
        (&[0x80, 0x80], 1),
        (&[0x80, 0x80, 0x80], 13),
        (&[0x80, 0x80, 0x01], 2),
        (&[1, 0x82, 0x00], 12),
        (&[1, 0x82, 0x80, 0x00], 12),
        (&[0], 2),
        (&[65], 2),
        (&[1], 1),
        (&[1, 0], 2),
        (&[1, 64], 2),
        (&[1, 63], 1),
        // The built task's features are judged after the last size and before the marks.
        (&[5, 63, 63, 63, 63, 30], 2),
        (&[5, 63, 63, 63, 63, 30, 2], 2),
        (&[6, 63, 63, 63, 63, 30, 0], 2),
        (&[6, 63, 63, 63, 63, 30], 1),
        (&[5, 63, 63, 63, 63, 29], 1),
        (&[5, 63, 63, 63, 63, 29, 2], 3),
        (&[5, 62, 58, 37, 62, 62, 2], 3),
        (&[5, 63, 37, 62, 59, 60, 2], 2),
        (&[5, 63, 63, 63, 63, 29, 1, 1], 1),
        // Too many before bays of sixteen.
        (&[2, 63, 62], 1),
        (&[2, 63, 62, 2], 3),
        (&[1, 2, 2], 3),
        (&[1, 2, 0x80, 0x01], 3),
        (&[1, 2, 0x80, 0x00], 12),
        (&[2, 2, 2, 1], 1),
        // "Unknown" is neither a start value nor a named goal value.
        (&[1, 2, 1, 2], 3),
        (&[1, 2, 1, 0], 1),
        (&[1, 2, 1, 0, 2], 3),
        (&[1, 2, 1, 0, 1, 0, 0], 0),
        (&[1, 2, 0, 0, 0, 0], 0),
        (&[1, 2, 0, 0, 0], 1),
        (&[1, 2, 0, 0, 0, 0, 0], 5),
        // The goal values of the named alone, in their order.
        (&[3, 1, 2, 3, 0, 1, 1, 0, 0, 0, 1, 2, 0, 0], 0),
        (&[3, 1, 2, 3, 0, 1, 1, 0, 0, 0, 2, 1, 0, 0], 3),
        // Pairs count by the file's own sizes: 4 to 7.
        (&[2, 2, 2, 0, 0, 0, 0, 1, 3, 0], 3),
        (&[2, 2, 2, 0, 0, 0, 0, 1, 5, 0], 0),
        (&[2, 2, 2, 0, 0, 0, 0, 1, 7, 0], 0),
        (&[2, 2, 2, 0, 0, 0, 0, 1, 8, 0], 3),
        (&[2, 2, 2, 0, 0, 0, 0, 2, 7, 7, 0], 4),
        // No operator names "unknown".
        (&[1, 2, 0, 0, 0, 1, 1, 0, 2, 0], 3),
        (&[1, 2, 0, 0, 0, 1, 1, 0, 0, 2], 3),
        (&[1, 2, 0, 0, 0, 1, 1, 0, 0, 1], 0),
        (&[1, 2, 0, 0, 0, 1, 1, 0, 0, 1, 9], 5),
        (&[2, 2, 2, 0, 0, 0, 0, 0, 1, 2, 1, 0, 0, 0], 4),
        // The start holds pair 4; pair 7 isn't closed under a lift.
        (&[2, 2, 2, 0, 0, 0, 0, 1, 4, 0], 6),
        (&[2, 2, 2, 0, 0, 0, 0, 1, 7, 1, 1, 0, 0, 1], 7),
    ];
    for (bytes, expected) in judged {
        assert_eq!(refusal(bytes), expected, "{bytes:?}");
    }
}

fn equal_sizes(variables: usize, size: u8, then: &[u8]) -> Vec<u8> {
    let mut file = vec![size; variables + 1];
    file[0] = variables as u8;
    file.extend(then);
    file
}

/// So many variables of size 1 have twice the square of their number as built features: 45 were the
/// most before bays of sixteen, and 64 have 8,192. Of size 3 they have 32,512, and of size 4 too many.
#[test]
fn the_most_variables() {
    assert_eq!(refusal(&equal_sizes(46, 1, &[2])), 3);
    assert_eq!(refusal(&equal_sizes(64, 1, &[2])), 3);
    assert_eq!(refusal(&equal_sizes(65, 1, &[2])), 2);
    assert_eq!(refusal(&equal_sizes(64, 3, &[2])), 3);
    assert_eq!(refusal(&equal_sizes(64, 4, &[2])), 2);
}

/// An order of fifteen slots has 27,120 built features, one of sixteen 34,952.
#[test]
fn the_most_slots() {
    assert_eq!(refusal(&equal_sizes(15, 15, &[2])), 3);
    assert_eq!(refusal(&equal_sizes(16, 16, &[2])), 2);
    let bay = |rows, columns| Bay {
        rows,
        columns,
        start: (0..rows * columns).collect(),
        goal: (0..rows * columns).collect(),
    };
    let fifteen = bay(3, 5).task().file();
    let mut room = vec![0; fifteen.len() + 15];
    let length = calls::silence(&fifteen, &[1; 15], &mut room);
    assert_eq!(length, done(room.len()));
    assert_eq!(refusal(&room), 0);
    for (rows, columns) in [(4, 4), (2, 8), (8, 2)] {
        let sixteen = bay(rows, columns).task().file();
        let mut room = vec![7; sixteen.len() + 16];
        assert_eq!(calls::silence(&sixteen, &[1; 16], &mut room), REFUSED + 2);
        assert_eq!(room, vec![7; sixteen.len() + 16]);
    }
}

fn lift(count: usize) -> Vec<Operator> {
    let lift = Entry {
        variable: 0,
        before: 0,
        after: 1,
    };
    vec![
        Operator {
            entries: [lift].into()
        };
        count
    ]
}

/// Five forgetting operators, of which the letter leaves one out and the lean call three.
fn long_file(operators: usize, start: [usize; 2]) -> Vec<u8> {
    Partial {
        sizes: vec![2, 3],
        start: start.to_vec(),
        goal: vec![Some(0), None],
        // The named goal with the silent 2: 5 + 2.
        pairs: vec![7],
        operators: lift(operators),
    }
    .file()
}

#[test]
fn kept_operators_are_counted() {
    let mut words = vec![0; words_due(&[3, 4])];
    let length = 8_400_000;
    let mut bytes = vec![0; length];
    let most = long_file(2_097_147, [0, 0]);
    assert_eq!(calls::check_partial(&most, &[0]), denied());
    assert!(calls::build_partial(&most, &mut bytes) <= done(length));
    let more = long_file(2_097_148, [0, 0]);
    let even_more = long_file(2_097_149, [0, 0]);
    assert_eq!(calls::check_partial(&more, &[]), REFUSED + 2);
    assert_eq!(calls::open_partial(&more, &mut words), REFUSED + 2);
    assert_eq!(calls::build_partial(&more, &mut bytes), REFUSED + 2);
    assert!(calls::build_partial_lean(&even_more, &mut bytes) <= done(length));
    let still_more = long_file(2_097_150, [0, 0]);
    assert_eq!(
        calls::build_partial_lean(&still_more, &mut bytes),
        REFUSED + 2
    );
    // Left-over bytes come before the count, a held pair after it, and both before the room.
    let left_over = [&more[..], &[0]].concat();
    assert_eq!(calls::build_partial(&left_over, &mut []), REFUSED + 5);
    assert_eq!(
        calls::build_partial(&long_file(2_097_148, [0, 2]), &mut []),
        REFUSED + 2
    );
    assert_eq!(
        calls::build_partial(&long_file(2_097_147, [0, 2]), &mut []),
        REFUSED + 6
    );
    assert_eq!(calls::build_partial(&most, &mut []), REFUSED + 8);
}

/// The count of the built file is longer than the file's own where four operators more take it there.
#[test]
fn counts_of_two_bytes_and_of_three() {
    for (operators, counts) in [
        (16_379, [&[0xFB, 0x7F][..], &[0xFF, 0x7F]]),
        (16_380, [&[0xFC, 0x7F], &[0x80, 0x80, 0x01]]),
        (16_384, [&[0x80, 0x80, 0x01], &[0x84, 0x80, 0x01]]),
    ] {
        let file = long_file(operators, [0, 0]);
        // Behind v, two sizes, two marks, two start values, a goal value, and a pair with its count.
        assert!(file[10..].starts_with(counts[0]));
        let mut task = vec![0; file.len() + 20];
        let length = calls::build_partial(&file, &mut task);
        assert!(length <= done(task.len()));
        assert!(task[9..].starts_with(counts[1]));
        let task = read_task(&task[..length as usize]).expect("built files are accepted");
        assert_eq!(task.operators.len(), operators + 4);
    }
}

/// A good task: its operator is idle, since pairs 6 and 7 leave the second digit no value.
const IDLE: [u8; 18] = [3, 2, 2, 2, 1, 0, 1, 0, 0, 0, 3, 6, 7, 12, 1, 1, 0, 0];

/// "Unknown" is a value that is left, so the operator is judged, and pair 12 isn't closed under it.
#[test]
fn a_silenced_task_that_is_refused() {
    let task = [&IDLE[..], &[1]].concat();
    assert!(read_task(&task).is_ok());
    for marks in [[0, 0, 0], [0, 1, 0], [1, 1, 1]] {
        let mut room = vec![0; 30];
        let length = calls::silence(&task, &marks, &mut room) as usize;
        let partial = &room[..length];
        assert_eq!(
            read_partial(partial).map(|read| read.operators.len()),
            Ok(1)
        );
        assert_eq!(calls::check_partial(partial, &[0]), REFUSED + 7);
        assert_eq!(calls::build_partial_lean(partial, &mut []), REFUSED + 7);
    }
}

#[test]
fn silencing_by_hand() {
    // Case B's ends with the back digit named.
    let task = [2, 2, 2, 0, 0, 0, 1, 1, 6, 0];
    let partial = [2, 2, 2, 0, 1, 0, 0, 1, 1, 6, 0];
    let mut room = [9; 13];
    assert_eq!(calls::silence(&task, &[0, 1], &mut room), done(11));
    assert_eq!(room, [&partial[..], &[9, 9]].concat()[..]);
    let refused: [(&[u8], usize, u64); 8] = [
        (&[0], 20, 3),
        (&[0, 1, 0], 20, 3),
        (&[], 0, 3),
        (&[0, 2], 0, 3),
        (&[255, 0], 20, 3),
        (&[1, 0], 10, 8),
        (&[1, 1], 11, 8),
        (&[0, 0], 0, 8),
    ];
    for (marks, length, expected) in refused {
        let mut room = vec![7; length];
        let answer = calls::silence(&task, marks, &mut room);
        assert_eq!(answer, REFUSED + expected, "{marks:?}");
        assert!(room.iter().all(|byte| *byte == 7));
    }
    // The task comes before its marks, its marks before the limits, and these before the room.
    assert_eq!(calls::silence(&task[..9], &[2], &mut []), REFUSED + 1);
    let wide = [1, 64, 0, 0, 0, 0];
    assert_eq!(calls::silence(&wide, &[2], &mut []), REFUSED + 3);
    assert_eq!(calls::silence(&wide, &[1], &mut []), REFUSED + 2);
    let narrower = [1, 63, 0, 0, 0, 0];
    assert_eq!(calls::silence(&narrower, &[1], &mut []), REFUSED + 8);
    let most = [&[64][..], &[3; 64], &[0; 64], &[0; 64], &[0, 0]].concat();
    assert_eq!(calls::silence(&most, &[1; 64], &mut []), REFUSED + 8);
    let many = [&[64][..], &[4; 64], &[0; 64], &[0; 64], &[0, 0]].concat();
    assert_eq!(calls::silence(&many, &[1; 64], &mut []), REFUSED + 2);
}

/// Few enough states to search all of them.
const SEARCHED: Scale = Scale {
    most_features: 110,
    most_variables: 4,
    most_values: 4,
    most_operators: 12,
};

const EVERY: [LeftOut; 3] = [LeftOut::Nothing, LeftOut::ByLetter, LeftOut::Lean];

/// The built goal is reached exactly when the order can be met, whatever is left out.
#[test]
fn built_goals_are_reached_exactly_when_orders_are_met() {
    let mut generator = Generator::new(0x9A47);
    let (mut met, mut left) = (0, 0);
    let rounds = 4_000;
    for _ in 0..rounds {
        let partial = scaled_partial(&mut generator, SEARCHED);
        let expected = can_meet(&partial);
        for left_out in EVERY {
            let task = partial.built(left_out);
            assert_eq!(solvable(&task), expected, "{left_out:?} {partial:?}");
        }
        let kept = partial.forgetting_operators(LeftOut::ByLetter).len();
        met += usize::from(expected);
        left += usize::from(kept < partial.sizes.iter().sum());
    }
    assert!(met > rounds / 4 && met < 3 * rounds / 4, "{met}");
    assert!(left > rounds / 8, "{left}");
}

/// Weights that a built task accepts mean that the order can't be met.
#[test]
fn accepted_weights_leave_orders_unmet() {
    let mut generator = Generator::new(0x9A48);
    let mut accepted = [0; 3];
    for _ in 0..2_000 {
        let partial = scaled_partial(&mut generator, SEARCHED);
        for (place, left_out) in EVERY.into_iter().enumerate() {
            let task = partial.built(left_out);
            let found = Workspace::of(&task).find();
            let weights = found.unwrap_or(meeting_weights(&mut generator, &task));
            if separates(&task, &weights) {
                assert!(!can_meet(&partial), "{partial:?}");
                // Both ends lead to all unknown, but a goal that holds a pair needn't.
                let parted = left_out != LeftOut::Nothing || task.pairing().held_by(&task.goal);
                assert!(parted, "{partial:?}");
                accepted[place] += 1;
            }
        }
    }
    assert!(
        accepted[0] > 0 && accepted[1] > accepted[0] && accepted[2] > accepted[1],
        "{accepted:?}"
    );
}

/// The calls read, build, open and judge a file as one whole.
#[test]
fn calls_agree_with_the_built_file() {
    let mut generator = Generator::new(0x9A49);
    for _ in 0..500 {
        let partial = scaled_partial(&mut generator, SMALL);
        let file = partial.file();
        assert_eq!(read_partial(&file), Ok(partial.clone()));
        let task = built(&file, calls::build_partial);
        assert_eq!(read_task(&task), Ok(partial.built(LeftOut::ByLetter)));
        let lean = built(&file, calls::build_partial_lean);
        assert_eq!(read_task(&lean), Ok(partial.built(LeftOut::Lean)));
        let due = words_due(&partial.built(LeftOut::Nothing).sizes);
        let (mut one, mut other) = (vec![1; due], vec![2; due]);
        assert_eq!(calls::open_partial(&file, &mut one), done(due));
        assert_eq!(calls::open(&task, &mut other), done(due));
        assert_eq!(one, other);
        let weights = meeting_weights(&mut generator, &partial.built(LeftOut::ByLetter));
        let weights = weight_file(&weights);
        assert_eq!(
            calls::check_partial(&file, &weights),
            calls::check(&task, &weights)
        );
    }
}

/// Silencing what completes a partial file gives the file back, whatever goals were filled in.
#[test]
fn silencing_gives_the_file_back() {
    let mut generator = Generator::new(0x9A4E);
    for _ in 0..500 {
        let partial = scaled_partial(&mut generator, SMALL);
        let mut task = completed(&partial);
        for variable in 0..partial.sizes.len() {
            if !partial.named(variable) {
                task.goal[variable] = generator.below(partial.sizes[variable]);
            }
        }
        let mut room = vec![0; partial.file().len()];
        let length = calls::silence(&task.file(), &partial.marks(), &mut room);
        assert_eq!(length, done(room.len()));
        assert_eq!(room, partial.file());
    }
}

/// A listed pair keeps its atoms: a state of old values holds it under both numbers or neither.
#[test]
fn pairs_keep_their_atoms() {
    let mut generator = Generator::new(0x9A4A);
    for _ in 0..1_000 {
        let partial = scaled_partial(&mut generator, SEARCHED);
        let task = partial.built(LeftOut::Nothing);
        let own = Features::new(&partial.sizes);
        let new = task.pairing().features;
        assert_eq!(partial.pairs.len(), task.pairs.len());
        assert!(task.pairs.is_sorted());
        for (pair, number) in partial.pairs.iter().zip(&task.pairs) {
            assert_eq!(own.feature(*pair), new.feature(*number));
        }
    }
}

/// With all named nothing is left out by the letter, and nothing separates where the goal holds no
/// pair; the lean task has the file's operators alone.
#[test]
fn all_named() {
    let mut generator = Generator::new(0x9A4B);
    let mut lean = 0;
    for _ in 0..500 {
        let sizes = sizes(&mut generator, SEARCHED);
        let mut partial = accepted_partial(&mut generator, &sizes, 6);
        let goal = state(&mut generator, &sizes);
        partial.goal = goal.into_iter().map(Some).collect();
        let task = partial.built(LeftOut::ByLetter);
        assert_eq!(task, partial.built(LeftOut::Nothing));
        let held = task.pairing().held_by(&task.goal);
        assert!(held || Workspace::of(&task).find().is_none());
        let task = partial.built(LeftOut::Lean);
        assert_eq!(task.operators, partial.operators);
        lean += usize::from(Workspace::of(&task).find().is_some());
    }
    assert!(lean > 100, "{lean}");
}

/// With all silent every state meets the order, so nothing is left out by either and none separate.
#[test]
fn all_silent() {
    let mut generator = Generator::new(0x9A4C);
    for _ in 0..500 {
        let mut partial = scaled_partial(&mut generator, SEARCHED);
        partial.goal.fill(None);
        assert!(partial.met_by(&partial.start));
        let task = partial.built(LeftOut::ByLetter);
        assert_eq!(task, partial.built(LeftOut::Nothing));
        assert_eq!(task, partial.built(LeftOut::Lean));
        assert_eq!(task.goal, partial.sizes);
        assert_eq!(Workspace::of(&task).find(), None::<FeatureSet>);
    }
}

/// The ways to fill a bay's silent slots with the labels that are left.
fn completions(bay: &Partial) -> Vec<Vec<usize>> {
    let mut completions = arrangements(&bay.start);
    completions.retain(|labels| bay.met_by(labels));
    completions
}

/// How many ways there are: the orders of all labels that are left over those of equal ones.
fn ways(bay: &Partial) -> usize {
    let factorial = |number: usize| (1..=number).product::<usize>();
    let named: Vec<usize> = bay.goal.iter().flatten().copied().collect();
    let silent = bay.goal.len() - named.len();
    let left = |label| times(&bay.start, label) - times(&named, label);
    let alike = (0..bay.goal.len()).map(|label| factorial(left(label)));
    factorial(silent) / alike.product::<usize>()
}

/// Moves keep the labels, so a bay's order is met exactly when one of its completions is reached.
#[test]
fn orders_of_bays_are_met_by_completions() {
    let mut generator = Generator::new(0x9A4D);
    for _ in 0..120 {
        let shape = generator.choose(&[(2, 2), (1, 4), (2, 3), (5, 1)]);
        let silent = generator.below(5);
        let bay = silenced_bay(&mut generator, shape, silent);
        let completions = completions(&bay);
        assert_eq!(completions.len(), ways(&bay));
        let within = own_states(&bay);
        let met = completions.iter().any(|labels| within.contains(labels));
        assert_eq!(can_meet(&bay), met, "{bay:?}");
    }
}

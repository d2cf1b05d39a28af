//! Mended pair lists: worked out by hand, and held against all sublists of small lists.

use reference::calls::{self, done, held, unclosed};
use reference::feature_set::FeatureSet;
use reference::mending::{dropped, first_fault, mended, PairFault};
use reference::operators::{combined_states, Operator, Pairing};
use reference::refusal::Refusal;
use reference::sample::bays::{bay, shapes_within};
use reference::sample::handmade::{
    every_list, every_operator, every_pair, handmade_bay, handmade_task, paired_sizes, sublists,
};
use reference::sample::tasks::{MEDIUM, SMALL, TINY};
use reference::sample::Generator;
use reference::search::{reached, successors};
use reference::task::{read_numbers, read_task, Task};
use reference::weights::weight_file;

const REFUSED: u64 = 3 << 32;

/// Two variables of sizes 3 and 2, from 00 to 20; the first operator takes digit 0 from 1 to 2, the
/// second from 0 to 1. Every pair is listed but 5, which the start holds.
const CHAIN: [u8; 22] = [
    2, 3, 2, 0, 0, 2, 0, 5, 6, 7, 8, 9, 10, 2, 1, 0, 1, 2, 1, 0, 0, 1,
];

/// The first operator is idle at first: pairs 7 and 8 leave digit 1 no value beside its 1. The
/// second makes 7 true, and once 7 is dropped the first makes 9 true. Pair 6 excuses 8, and 8
/// excuses 10.
#[test]
fn a_drop_that_makes_another_necessary() {
    let mut room = [9; 22];
    assert_eq!(calls::mend(&CHAIN, &mut room), done(20));
    let kept = [
        2, 3, 2, 0, 0, 2, 0, 3, 6, 8, 10, 2, 1, 0, 1, 2, 1, 0, 0, 1, 9, 9,
    ];
    assert_eq!(room, kept);
    let mut room = [9; 5];
    assert_eq!(calls::dropped(&CHAIN, &mut room), done(3));
    assert_eq!(room, [2, 7, 9, 9, 9]);
    let mut room = [9; 3];
    assert_eq!(calls::pair_fault(&CHAIN, &mut room), unclosed());
    assert_eq!(room, [7, 1, 9]);
}

/// Document 01's cases G, H, I and L: unclosed, held, and twice good.
#[test]
fn marked_cases() {
    let mend = |file: &[u8]| {
        let (mut task, mut pairs, mut words) = ([9; 30], [9; 4], [9; 2]);
        let length = calls::mend(file, &mut task);
        let told = calls::dropped(file, &mut pairs);
        let fault = calls::pair_fault(file, &mut words);
        let task = task[..length as usize].to_vec();
        (task, pairs[..told as usize].to_vec(), fault, words)
    };
    let unclosed_case = [2, 2, 2, 0, 0, 1, 0, 1, 7, 1, 1, 0, 0, 1];
    let without = [2, 2, 2, 0, 0, 1, 0, 0, 1, 1, 0, 0, 1];
    let expected = (without.to_vec(), vec![1, 7], unclosed(), [7, 0]);
    assert_eq!(mend(&unclosed_case), expected);
    let held_case = [2, 2, 2, 1, 1, 0, 0, 1, 7, 0];
    let without = [2, 2, 2, 1, 1, 0, 0, 0, 0];
    let expected = (without.to_vec(), vec![1, 7], held(), [7, 9]);
    assert_eq!(mend(&held_case), expected);
    let closed_case = [2, 2, 2, 0, 0, 1, 1, 1, 7, 1, 2, 0, 0, 1, 1, 0, 0];
    let idle_case = [2, 2, 2, 1, 0, 0, 0, 2, 4, 5, 1, 1, 0, 0, 1];
    for good in [&closed_case[..], &idle_case] {
        assert_eq!(mend(good), (good.to_vec(), vec![0], done(0), [9, 9]));
    }
}

/// The start is judged before the operators, each of which names its least pair.
#[test]
fn the_least_pair_of_the_first_fault() {
    let fault = |start: [u8; 2], pairs: &[u8], operators: &[u8]| {
        let front = [2, 2, 3, start[0], start[1], 0, 0, pairs.len() as u8];
        let file = [&front[..], pairs, operators].concat();
        first_fault(&read_numbers(&file).expect("no number is at fault"))
    };
    // Digit 0 goes from 0 to 1, where 8, 9 and 10 are its pairs with digit 1's 0, 1 and 2.
    let lift = [1, 1, 0, 0, 1];
    let both = [2, 1, 1, 1, 2, 1, 0, 0, 1];
    let unclosed = |pair, operator| Some(PairFault::Unclosed { pair, operator });
    assert_eq!(fault([0, 0], &[8, 9, 10], &lift), unclosed(8, 0));
    assert_eq!(fault([0, 0], &[9, 10], &lift), unclosed(9, 0));
    // Pair 6 leaves digit 1's 1 impossible beside digit 0's 0.
    assert_eq!(fault([0, 0], &[6, 9, 10], &lift), unclosed(10, 0));
    assert_eq!(fault([0, 0], &[6, 9], &lift), None);
    assert_eq!(fault([1, 1], &[8, 9, 10], &lift), Some(PairFault::Held(9)));
    // Digit 1 goes from 1 to 2 first, which makes 10 true; 8 is less, but the lift makes it true.
    assert_eq!(fault([0, 0], &[8, 10], &both), unclosed(10, 0));
    assert_eq!(fault([0, 0], &[8], &both), unclosed(8, 1));
}

/// 1 to 5 as in a task file, no 6 and no 7, then 8.
#[test]
fn refusals_in_their_order() {
    let judged: [(&[u8], u64); 6] = [
        (&[2, 2, 2, 1, 1, 0, 0, 1, 7], 1),
        (&[2, 65, 2, 1, 1, 0, 0, 1, 7, 0], 2),
        (&[2, 2, 2, 1, 1, 0, 0, 1, 8, 0], 3),
        (&[2, 2, 2, 1, 1, 0, 0, 2, 7, 7, 0], 4),
        (&[2, 2, 2, 1, 1, 0, 0, 1, 7, 0, 0], 5),
        (&[2, 2, 2, 1, 1, 0, 0, 1, 7, 0], 8),
    ];
    for (file, expected) in judged {
        assert_eq!(calls::mend(file, &mut []), REFUSED + expected);
        assert_eq!(calls::dropped(file, &mut []), REFUSED + expected);
        assert_eq!(calls::pair_fault(file, &mut []), REFUSED + expected);
    }
}

/// What a call answers and leaves in room of so many items.
fn in_room<Item: Clone>(
    call: fn(&[u8], &mut [Item]) -> u64,
    task: &[u8],
    length: usize,
    junk: Item,
) -> (u64, Vec<Item>) {
    let mut room = vec![junk; length];
    let answer = call(task, &mut room);
    (answer, room)
}

/// Room that is too short stays as it was, and so does what lies past the file.
fn holds_in_every_room(call: fn(&[u8], &mut [u8]) -> u64, task: &[u8], due: &[u8]) {
    for length in 0..due.len() + 3 {
        let (answer, room) = in_room(call, task, length, 7);
        if length < due.len() {
            assert_eq!((answer, room), (REFUSED + 8, vec![7; length]));
        } else {
            let rest = vec![7; length - due.len()];
            assert_eq!((answer, room), (done(due.len()), [due, &rest].concat()));
        }
    }
}

#[test]
fn rooms_of_every_length() {
    let mut generator = Generator::new(0x3E11);
    for _ in 0..300 {
        let sizes = paired_sizes(&mut generator, TINY);
        let task = handmade_task(&mut generator, &sizes, 4);
        let file = task.file();
        holds_in_every_room(calls::mend, &file, &mended(&task).file());
        holds_in_every_room(calls::dropped, &file, &weight_file(&dropped(&task)));
        for length in 0..2 {
            let refused = (REFUSED + 8, vec![7; length]);
            assert_eq!(in_room(calls::pair_fault, &file, length, 7), refused);
        }
        let (answer, words) = match first_fault(&task) {
            None => (done(0), [7, 7]),
            Some(PairFault::Held(pair)) => (held(), [pair as u64, 7]),
            Some(PairFault::Unclosed { pair, operator }) => {
                (unclosed(), [pair as u64, operator as u64])
            }
        };
        for more in 0..3 {
            let expected = (answer, [&words[..], &vec![7; more]].concat());
            assert_eq!(in_room(calls::pair_fault, &file, 2 + more, 7), expected);
        }
    }
}

fn with_pairs(task: &Task, pairs: &[usize]) -> Task {
    Task {
        pairs: pairs.to_vec(),
        ..task.clone()
    }
}

/// Whether a task's own list is good: nothing else of it can be refused here.
fn good(task: &Task) -> bool {
    read_task(&task.file()).is_ok()
}

/// The pairs of all good sublists.
fn union_of_good(task: &Task) -> Vec<usize> {
    let mut lists = sublists(&task.pairs);
    lists.retain(|list| good(&with_pairs(task, list)));
    let mut union = lists.concat();
    union.sort_unstable();
    union.dedup();
    union
}

/// What is promised of any list, without a look at its sublists.
fn keeps_its_promises(task: &Task) {
    let file = task.file();
    let kept = mended(task);
    assert_eq!(read_task(&kept.file()), Ok(kept.clone()));
    assert_eq!(mended(&kept).file(), kept.file());
    let told = dropped(task).members();
    assert!(told.is_sorted());
    let mut all = [&kept.pairs[..], &told].concat();
    all.sort_unstable();
    assert_eq!(all, task.pairs);
    assert_eq!(kept.file() == file, good(task));
    assert_eq!(told.is_empty(), good(task));
    assert_eq!(with_pairs(&kept, &task.pairs), *task);
    let number = match first_fault(task) {
        None => Ok(()),
        Some(PairFault::Held(_)) => Err(Refusal::StartHoldsPair),
        Some(PairFault::Unclosed { .. }) => Err(Refusal::NotClosed),
    };
    assert_eq!(read_task(&file).map(|_| ()), number);
}

/// Every list and start over two variables of size 2, with every two operators.
#[test]
fn the_union_of_good_sublists_everywhere() {
    let operators = every_operator();
    assert_eq!(operators.len(), 24);
    for one in &operators {
        for other in &operators {
            for task in every_list(&[one.clone(), other.clone()]) {
                assert_eq!(mended(&task).pairs, union_of_good(&task), "{task:?}");
                keeps_its_promises(&task);
            }
        }
    }
}

/// A random task that lists few enough pairs to try all sublists.
fn few_pairs(generator: &mut Generator) -> Task {
    loop {
        let scale = generator.choose(&[TINY, SMALL]);
        let sizes = paired_sizes(generator, scale);
        let task = handmade_task(generator, &sizes, 6);
        if (1..=9).contains(&task.pairs.len()) {
            return task;
        }
    }
}

#[test]
fn the_union_of_good_sublists() {
    let mut generator = Generator::new(0x3E12);
    let (mut some, mut whole) = (0, 0);
    let rounds = 2_000;
    for _ in 0..rounds {
        let task = few_pairs(&mut generator);
        let kept = mended(&task).pairs;
        assert_eq!(kept, union_of_good(&task), "{task:?}");
        keeps_its_promises(&task);
        whole += usize::from(kept == task.pairs);
        some += usize::from(kept != task.pairs && !kept.is_empty());
    }
    assert!(some > rounds / 5 && whole > rounds / 5, "{some} {whole}");
}

/// A task of any scale, or a bay's.
fn any_task(generator: &mut Generator) -> Task {
    if generator.once_in(20) {
        let shape = generator.choose(&shapes_within(5));
        return handmade_bay(generator, shape);
    }
    let scale = generator.choose(&[TINY, SMALL, SMALL, MEDIUM]);
    let sizes = paired_sizes(generator, scale);
    handmade_task(generator, &sizes, 12)
}

#[test]
fn promises_of_larger_lists() {
    let mut generator = Generator::new(0x3E13);
    for _ in 0..2_000 {
        keeps_its_promises(&any_task(&mut generator));
    }
}

/// Whatever is good within a sublist is good within the list.
#[test]
fn sublists_keep_no_more() {
    let mut generator = Generator::new(0x3E14);
    for _ in 0..1_000 {
        let task = any_task(&mut generator);
        let mut fewer = task.clone();
        fewer.pairs.retain(|_| !generator.once_in(4));
        let kept = mended(&task).pairs;
        let within = |pair: &usize| kept.contains(pair);
        assert!(mended(&fewer).pairs.iter().all(within), "{task:?}");
    }
}

/// Dropping the pair that is named, one at a time, ends with the same list.
#[test]
fn one_pair_at_a_time() {
    let mut generator = Generator::new(0x3E15);
    for _ in 0..1_000 {
        let task = any_task(&mut generator);
        let mut left = task.clone();
        while let Some(PairFault::Held(named) | PairFault::Unclosed { pair: named, .. }) =
            first_fault(&left)
        {
            left.pairs.retain(|pair| *pair != named);
        }
        assert_eq!(left, mended(&task));
    }
}

/// The listed pairs that an operator makes true from a considered state.
fn made_true(pairing: &Pairing, operator: &Operator) -> Vec<usize> {
    let states = if pairing.idle(operator) {
        Vec::new()
    } else {
        combined_states(&pairing.considered_values(operator))
    };
    let mut made = FeatureSet::empty(pairing.features.count());
    for state in states {
        let before = pairing.held(&state);
        let mut after = pairing.held(&operator.applied(&state));
        after.retain(|pair| !before.contains(pair));
        made.extend(after);
    }
    made.members()
}

/// The pairs by which a list isn't closed are those that the operator makes true.
#[test]
fn unclosed_pairs_are_made_true() {
    let mut generator = Generator::new(0x3E16);
    let mut open = 0;
    for _ in 0..3_000 {
        let sizes = paired_sizes(&mut generator, SMALL);
        let task = handmade_task(&mut generator, &sizes, 8);
        let pairing = task.pairing();
        for operator in &task.operators {
            let unclosed = pairing.unclosed(operator);
            assert_eq!(pairing.closed(operator), unclosed.is_empty());
            assert_eq!(unclosed, made_true(&pairing, operator));
            open += usize::from(!unclosed.is_empty());
        }
    }
    assert!(open > 500, "{open}");
}

/// The first fault, by the states that each operator leads to.
fn fault_by_states(task: &Task) -> Option<PairFault> {
    let pairing = task.pairing();
    let held = pairing.held(&task.start).into_iter().map(PairFault::Held);
    let operators = task.operators.iter().enumerate();
    let made = operators.flat_map(|(operator, each)| {
        let pairs = made_true(&pairing, each).into_iter();
        pairs.map(move |pair| PairFault::Unclosed { pair, operator })
    });
    held.chain(made).next()
}

#[test]
fn first_faults_by_states() {
    let mut generator = Generator::new(0x3E19);
    for _ in 0..3_000 {
        let sizes = paired_sizes(&mut generator, SMALL);
        let task = handmade_task(&mut generator, &sizes, 8);
        assert_eq!(first_fault(&task), fault_by_states(&task), "{task:?}");
    }
}

/// No state that can be reached holds a pair that is kept, though every pair was listed.
#[test]
fn kept_pairs_are_never_reached() {
    let mut generator = Generator::new(0x3E17);
    let mut kept = 0;
    for _ in 0..500 {
        let sizes = paired_sizes(&mut generator, SMALL);
        let mut task = handmade_task(&mut generator, &sizes, 8);
        task.pairs = every_pair(&sizes);
        let task = mended(&task);
        let pairing = task.pairing();
        for state in reached(&task.start, |state| successors(&task, state)) {
            assert!(!pairing.held_by(&state), "{task:?}");
        }
        kept += usize::from(!task.pairs.is_empty());
    }
    assert!(kept > 250, "{kept}");
}

/// A bay's own pairs come back, and are among those that are kept of all.
#[test]
fn pairs_of_bays() {
    let mut generator = Generator::new(0x3E18);
    for shape in shapes_within(5) {
        for _ in 0..4 {
            let task = bay(&mut generator, shape).task();
            assert_eq!(mended(&task), task);
            let kept = mended(&with_pairs(&task, &every_pair(&task.sizes)));
            assert!(task.pairs.iter().all(|pair| kept.pairs.contains(pair)));
        }
    }
}

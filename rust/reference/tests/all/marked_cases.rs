//! Document 01's cases A to L, its worked bytes and words, and bays with lots worked out by hand.

use reference::bay::Bay;
use reference::calls;
use reference::feature_set::FeatureSet;
use reference::features::{count_features, Features};
use reference::line::line;
use reference::operators::{Entry, Operator};
use reference::partial::built_sizes;
use reference::refusal::Refusal;
use reference::sample::partials::{FORMER_PARTIAL_EDGES, PARTIAL_EDGES, PARTIAL_PAST_EDGES};
use reference::sample::tasks::{FORMER_EDGES, LIBRARY_EDGES, NUMBER_EDGES, PAST_EDGES};
use reference::separation::{verdict, Verdict};
use reference::task::{read_task, Task};
use reference::weights::weight_file;
use reference::workspace::{words_due, Workspace};

const REFUSED: u64 = 3 << 32;

/// Case B's file as printed.
const CASE_B: [u8; 37] = [
    0x02, 0x02, 0x02, 0x00, 0x00, 0x00, 0x01, 0x00, 0x04, 0x02, 0x00, 0x00, 0x01, 0x01, 0x00, 0x01,
    0x02, 0x00, 0x00, 0x01, 0x01, 0x01, 0x00, 0x02, 0x00, 0x01, 0x00, 0x01, 0x01, 0x00, 0x02, 0x00,
    0x01, 0x00, 0x01, 0x00, 0x01,
];

fn operator(entries: &[(usize, usize, usize)]) -> Operator {
    let entry = |&(variable, before, after)| Entry {
        variable,
        before,
        after,
    };
    Operator {
        entries: entries.iter().map(entry).collect(),
    }
}

fn lift() -> Operator {
    operator(&[(0, 0, 1)])
}

fn flips() -> Vec<Operator> {
    vec![
        operator(&[(0, 0, 1), (1, 0, 1)]),
        operator(&[(0, 0, 1), (1, 1, 0)]),
        operator(&[(0, 1, 0), (1, 1, 0)]),
        operator(&[(0, 1, 0), (1, 0, 1)]),
    ]
}

fn task(start: [usize; 2], goal: [usize; 2], pairs: &[usize], operators: Vec<Operator>) -> Task {
    Task {
        sizes: vec![2, 2],
        start: start.to_vec(),
        goal: goal.to_vec(),
        pairs: pairs.to_vec(),
        operators,
    }
}

/// The finder's answer by way of the calls, which the program's line must agree with.
fn found(task: &Task) -> Result<Option<Vec<usize>>, u64> {
    let mut words = vec![0; words_due(&task.sizes)];
    let opened = calls::open(&task.file(), &mut words);
    if opened >> 32 == 3 {
        let number = opened & 0xFFFF_FFFF;
        assert_eq!(line(&task.file()), format!("refused {number}\n"));
        return Err(number);
    }
    let mut answer = [0];
    if calls::find(&words, &mut answer) == calls::denied() {
        assert_eq!(line(&task.file()), "none\n");
        return Ok(None);
    }
    let members = FeatureSet::from_words(&answer).members();
    let numbers: Vec<String> = members.iter().map(usize::to_string).collect();
    let printed = format!("separated {} {}\n", members.len(), numbers.join(" "));
    assert_eq!(line(&task.file()), printed);
    Ok(Some(members))
}

fn case_b() -> Task {
    task([0, 0], [0, 1], &[], flips())
}

#[test]
fn case_a() {
    assert_eq!(found(&task([0, 0], [0, 1], &[], vec![])), Ok(Some(vec![2])));
}

#[test]
fn case_b_and_its_bytes() {
    // The printed file fixes the order of the four operators.
    let read = read_task(&CASE_B).expect("case B is accepted");
    assert_eq!(read.file(), CASE_B);
    assert_eq!(found(&read), Ok(Some(vec![0, 2])));
    assert_eq!(line(&CASE_B), "separated 2 0 2\n");
    assert_eq!(found(&case_b()), Ok(Some(vec![0, 2])));
}

#[test]
fn case_b_workspace_words() {
    let words = Workspace::of(&read_task(&CASE_B).expect("accepted")).words();
    let printed = [2, 2, 2, 0, 0, 0, 1, 0, 111, 0, 0, 0, 240, 0, 0, 0];
    assert_eq!(words, printed);
    let mut room = [7; 18];
    assert_eq!(calls::open(&CASE_B, &mut room), 16);
    assert_eq!(room[..16], printed);
    assert_eq!(room[16..], [7, 7]);
}

#[test]
fn case_c() {
    let case = task([0, 0], [0, 1], &[], vec![lift()]);
    assert_eq!(found(&case), Ok(Some(vec![2])));
}

#[test]
fn case_d() {
    assert_eq!(found(&task([0, 0], [1, 0], &[], vec![lift()])), Ok(None));
}

#[test]
fn case_e() {
    assert_eq!(found(&task([1, 0], [0, 0], &[], vec![lift()])), Ok(None));
}

#[test]
fn case_f() {
    assert_eq!(found(&task([0, 0], [0, 0], &[], vec![])), Ok(None));
}

#[test]
fn case_g() {
    assert_eq!(found(&task([0, 0], [1, 0], &[7], vec![lift()])), Err(7));
}

#[test]
fn case_h() {
    assert_eq!(found(&task([1, 1], [0, 0], &[7], vec![])), Err(6));
}

#[test]
fn case_i() {
    let guarded = operator(&[(0, 0, 1), (1, 0, 0)]);
    let case = task([0, 0], [1, 1], &[7], vec![guarded]);
    assert_eq!(found(&case), Ok(Some(vec![2])));
}

#[test]
fn cases_j_and_k() {
    let read = read_task(&CASE_B).expect("accepted");
    let weights = |members: &[usize]| FeatureSet::of(8, members);
    assert_eq!(verdict(&read, &weights(&[0])), Verdict::EndsAlike);
    assert_eq!(verdict(&read, &weights(&[2])), Verdict::Operator(0));
    assert_eq!(verdict(&read, &weights(&[0, 2])), Verdict::Accepted);
    assert_eq!(calls::check(&CASE_B, &[1, 0]), 1 << 32);
    assert_eq!(calls::check(&CASE_B, &[1, 2]), 2 << 32);
    assert_eq!(calls::check(&CASE_B, &[2, 0, 2]), 0);
    assert_eq!(weight_file(&weights(&[0, 2])), [2, 0, 2]);
}

#[test]
fn case_l() {
    let case = task([1, 0], [0, 0], &[4, 5], vec![lift()]);
    assert!(case.pairing().idle(&lift()));
    assert_eq!(found(&case), Ok(Some(vec![0])));
}

#[test]
fn smallest_bay() {
    let printed = [
        0x02, 0x02, 0x02, 0x00, 0x01, 0x01, 0x00, 0x02, 0x04, 0x07, 0x02, 0x02, 0x00, 0x00, 0x01,
        0x01, 0x01, 0x00, 0x02, 0x00, 0x01, 0x00, 0x01, 0x00, 0x01,
    ];
    let bay = Bay {
        rows: 1,
        columns: 2,
        start: vec![0, 1],
        goal: vec![1, 0],
    };
    assert_eq!(bay.file(), [1, 2, 0, 1, 1, 0]);
    let mut room = [9; 27];
    assert_eq!(calls::build(&bay.file(), &mut room), 25);
    assert_eq!(room[..25], printed);
    assert_eq!(room[25..], [9, 9]);
}

#[test]
fn three_by_three_has_192_operators() {
    let bay = Bay {
        rows: 3,
        columns: 3,
        start: (0..9).collect(),
        goal: (0..9).rev().collect(),
    };
    assert_eq!(bay.task().operators.len(), 192);
    // Each of nine labels in each two of nine slots.
    assert_eq!(bay.task().pairs.len(), 9 * 36);
    assert_eq!(read_task(&bay.task().file()), Ok(bay.task()));
}

/// Two pallets of lot 1 in a row of three: lot 2 doesn't occur, and only the gap gives pairs.
#[test]
fn smallest_bay_with_a_lot() {
    let expected = [
        // Three variables of size 3, start, goal.
        3, 3, 3, 3, 0, 1, 1, 1, 1, 0, //
        // Nine single atoms, then nine features for each two slots, the gap in both the first.
        3, 9, 18, 27, //
        4, 2, 0, 0, 1, 1, 1, 0, // Slot 1 into slot 0.
        2, 0, 1, 0, 1, 0, 1, // Slot 0 into slot 1.
        2, 1, 0, 1, 2, 1, 0, // Slot 2 into slot 1.
        2, 1, 1, 0, 2, 0, 1, // Slot 1 into slot 2.
    ];
    let mut room = [9; 45];
    assert_eq!(calls::build(&[1, 3, 0, 1, 1, 1, 1, 0], &mut room), 43);
    assert_eq!(room[..43], expected);
    assert_eq!(room[43..], [9, 9]);
}

/// Labels of all kinds in a square: 1 occurs twice, 2 doesn't, the gap and 3 occur once.
#[test]
fn labels_that_occur_once_give_pairs() {
    let bay = Bay {
        rows: 2,
        columns: 2,
        start: vec![1, 0, 3, 1],
        goal: vec![1, 1, 0, 3],
    };
    // After 16 single atoms, 16 features for each two slots: 0 with 0 first, 3 with 3 last.
    let pairs = [16, 31, 32, 47, 48, 63, 64, 79, 80, 95, 96, 111];
    assert_eq!(bay.task().pairs, pairs);
    // Each slot has two neighbours; labels 1 and 3 slide.
    let operators = bay.task().operators;
    assert_eq!(operators.len(), 4 * 2 * 2);
    let first = [
        operator(&[(0, 0, 1), (1, 1, 0)]),
        operator(&[(0, 0, 3), (1, 3, 0)]),
        operator(&[(0, 0, 1), (2, 1, 0)]),
        operator(&[(0, 0, 3), (2, 3, 0)]),
        operator(&[(0, 1, 0), (1, 0, 1)]),
    ];
    assert_eq!(operators[..5], first);
    assert_eq!(read_task(&bay.task().file()), Ok(bay.task()));
}

#[test]
fn two_lots_of_four() {
    let bay = Bay {
        rows: 3,
        columns: 3,
        start: vec![0, 1, 1, 1, 1, 2, 2, 2, 2],
        goal: vec![2, 1, 2, 1, 0, 1, 2, 1, 2],
    };
    // 24 ways from a slot to a neighbour, two lots.
    assert_eq!(bay.task().operators.len(), 24 * 2);
    // The gap alone: the first feature of each of the 36 pairs of slots, 81 apart.
    let pairs: Vec<usize> = (1..=36).map(|place| 81 * place).collect();
    assert_eq!(bay.task().pairs, pairs);
    // v, sizes, start, goal; the first pair in one byte and the others in two; operators of seven.
    let due = 1 + 3 * 9 + 1 + (1 + 35 * 2) + 1 + 48 * 7;
    let mut room = vec![9; due];
    assert_eq!(calls::build(&bay.file(), &mut room), due as u64);
    assert_eq!(read_task(&room), Ok(bay.task()));
}

/// Four by four has 24 pairs of neighbouring slots, each in both directions, and fifteen pallets.
#[test]
fn four_by_four() {
    let bay = Bay {
        rows: 4,
        columns: 4,
        start: (0..16).collect(),
        goal: (0..16).rev().collect(),
    };
    let task = bay.task();
    assert_eq!(count_features(&task.sizes), 30_976);
    assert_eq!(task.operators.len(), 48 * 15);
    // Each of sixteen labels in each two of sixteen slots.
    assert_eq!(task.pairs.len(), 16 * 120);
    // After 256 single atoms, 256 features for each two slots: label 15 in the last two is the last.
    assert_eq!(task.pairs[..2], [256, 256 + 17]);
    assert_eq!(task.pairs[1_919], 30_975);
    // A pair takes two bytes, from the 64th two slots on three; the counts of pairs and operators two.
    let later = task.pairs.iter().filter(|pair| **pair >= 16_384).count();
    assert_eq!(later, (120 - 63) * 16);
    let due = 1 + 3 * 16 + 2 + 2 * 1_920 + later + 2 + 720 * 7;
    let mut room = vec![9; due + 1];
    assert_eq!(calls::build(&bay.file(), &mut room), due as u64);
    assert_eq!(read_task(&room[..due]), Ok(task));
    assert_eq!(room[due], 9);
    assert_eq!(calls::build(&bay.file(), &mut room[1..due]), REFUSED + 8);
}

#[test]
fn limits_of_features() {
    assert_eq!(count_features(&[64, 62]), 4_094);
    assert_eq!(count_features(&[64, 63]), 4_159);
    assert_eq!(count_features(&[1; 64]), 2_080);
    assert_eq!(count_features(&[16; 16]), 30_976);
    assert_eq!(count_features(&built_sizes(&[15; 15])), 27_120);
    assert_eq!(count_features(&built_sizes(&[16; 16])), 34_952);
    for sizes in [
        vec![64, 62],
        vec![1; 64],
        vec![2, 2],
        vec![3, 1, 4],
        vec![16; 16],
    ] {
        let features = Features::new(&sizes);
        assert_eq!(features.count(), count_features(&sizes));
        assert_eq!(features.singles(), sizes.iter().sum::<usize>());
    }
    let plain = |sizes: &[usize]| Task {
        sizes: sizes.to_vec(),
        start: vec![0; sizes.len()],
        goal: vec![0; sizes.len()],
        pairs: vec![],
        operators: vec![],
    };
    let counts = |edges: &[&[usize]]| edges.iter().map(|sizes| count_features(sizes)).collect();
    let counts: [Vec<usize>; 3] = [
        counts(&NUMBER_EDGES),
        counts(&LIBRARY_EDGES),
        counts(&PAST_EDGES),
    ];
    assert_eq!(counts[0], [16_383, 16_384, 16_385, 16_386]);
    assert_eq!(counts[1], [32_767, 32_768, 32_768, 32_768, 32_512]);
    assert_eq!(counts[2], [32_769, 32_769, 32_799, 50_720, 8_261_632]);
    for sizes in [&FORMER_EDGES[..], &NUMBER_EDGES, &LIBRARY_EDGES].concat() {
        assert!(read_task(&plain(sizes).file()).is_ok());
    }
    for sizes in PAST_EDGES {
        assert_eq!(read_task(&plain(sizes).file()), Err(Refusal::Limit));
    }
}

#[test]
fn limits_of_built_features() {
    let built = |sizes: &&[usize]| count_features(&built_sizes(sizes));
    let counts: Vec<usize> = FORMER_PARTIAL_EDGES.iter().map(built).collect();
    assert_eq!(
        counts,
        [4_094, 4_095, 4_096, 4_097, 4_159, 4_050, 4_232, 8_192]
    );
    let counts: Vec<usize> = PARTIAL_EDGES.iter().map(built).collect();
    assert_eq!(counts, [32_767, 32_768, 32_512]);
    let counts: Vec<usize> = PARTIAL_PAST_EDGES[2..].iter().map(built).collect();
    assert_eq!(counts, [32_769, 32_799, 50_720, 34_952]);
    for sizes in PARTIAL_PAST_EDGES {
        assert!(count_features(sizes) <= 32_768, "{sizes:?}");
    }
}

/// The grid of kinds, held against two states.
#[test]
fn grid_of_kinds() {
    let (absent, kept, made, used) = (0, 1, 2, 3);
    let grid = [[0, 0, 0, 0], [0, 0, 1, 1], [0, 1, 1, 0], [0, 1, 0, 1]];
    let kind = |value: usize, before: usize, after: usize| match (value == before, value == after) {
        (false, false) => absent,
        (true, true) => kept,
        (false, true) => made,
        (true, false) => used,
    };
    let features = Features::new(&[3, 3]);
    for code in 0..81 {
        let (before, after) = ([code % 3, code / 3 % 3], [code / 9 % 3, code / 27]);
        let changed = features.changed(&before, &after);
        for number in features.singles()..features.count() {
            let place = number - features.singles();
            let kinds = [
                kind(place / 3, before[0], after[0]),
                kind(place % 3, before[1], after[1]),
            ];
            let expected = grid[kinds[0]][kinds[1]] == 1;
            assert_eq!(changed.contains(number), expected, "{before:?} {after:?}");
        }
    }
}

//! Files of both kinds: worked out by hand, there and back, and held against sums of their gaps.

use reference::calls::{self, done};
use reference::feature_set::FeatureSet;
use reference::features::count_features;
use reference::kinds::{kind_of, Kind};
use reference::line::{check_line, line};
use reference::mending::{dropped, mended};
use reference::numbers::{encode, Reader};
use reference::partial::silenced;
use reference::places::{read_both, read_task_file, read_task_file_of, Fault, File};
use reference::refusal::Refusal;
use reference::sample::bays::{bay, shapes_within};
use reference::sample::damage::damaged_file;
use reference::sample::handmade::{handmade_task, paired_sizes};
use reference::sample::kinds::{edged_task, edged_weights, miskinded_file};
use reference::sample::partials::{marks, scaled_partial};
use reference::sample::tasks::{
    accepted_task, loose_weights, scaled_task, sizes, LIBRARY_EDGES, MEDIUM, NUMBER_EDGES, SMALL,
    TINY,
};
use reference::sample::Generator;
use reference::task::{read_numbers, read_task, Task};
use reference::weights::{read_weights, weight_file, weight_file_of, weight_numbers_of};
use reference::workspace::Workspace;

const REFUSED: u64 = 3 << 32;

/// Two variables of size 2 from 00 to 01, so far; of the new kind.
const HEAD: [u8; 8] = [0, 2, 2, 2, 0, 0, 0, 1];

/// Two variables of size 12: 24 atoms, 168 features; of the new kind.
const WIDE: [u8; 8] = [0, 2, 12, 12, 0, 0, 0, 1];

fn joined(head: &[u8], tail: &[u8]) -> Vec<u8> {
    [head, tail].concat()
}

/// Case A, of the new kind.
fn plain() -> Vec<u8> {
    joined(&HEAD, &[0, 0])
}

/// The file that a call writes.
fn written(call: impl Fn(&mut [u8]) -> u64) -> Vec<u8> {
    let mut room = vec![7; 100_000];
    let length = call(&mut room);
    assert!(length <= done(room.len()), "it is written");
    room.truncate(length as usize);
    room
}

fn to_new(task: &[u8]) -> Vec<u8> {
    written(|room| calls::to_new(task, room))
}

fn to_old(task: &[u8]) -> Vec<u8> {
    written(|room| calls::to_old(task, room))
}

fn weights_to_new(task: &[u8], weights: &[u8]) -> Vec<u8> {
    written(|room| calls::weights_to_new(task, weights, room))
}

fn weights_to_old(task: &[u8], weights: &[u8]) -> Vec<u8> {
    written(|room| calls::weights_to_old(task, weights, room))
}

/// Case C, and the bay of document 01; of sizes 3 and 2, pairs 5 to 10 without 7 are 5, 0, 1, 0, 0.
#[test]
fn files_in_both_kinds() {
    let cases: [(&[u8], &[u8]); 4] = [
        (
            &[2, 2, 2, 0, 0, 0, 1, 0, 1, 1, 0, 0, 1],
            &[0, 2, 2, 2, 0, 0, 0, 1, 0, 1, 1, 0, 0, 1],
        ),
        (
            &[
                2, 2, 2, 0, 1, 1, 0, 2, 4, 7, 2, 2, 0, 0, 1, 1, 1, 0, 2, 0, 1, 0, 1, 0, 1,
            ],
            &[
                0, 2, 2, 2, 0, 1, 1, 0, 2, 4, 2, 2, 2, 0, 0, 1, 1, 1, 0, 2, 0, 1, 0, 1, 0, 1,
            ],
        ),
        (
            &[2, 3, 2, 1, 0, 2, 0, 5, 5, 6, 8, 9, 10, 0],
            &[0, 2, 3, 2, 1, 0, 2, 0, 5, 5, 0, 1, 0, 0, 0],
        ),
        // 128 takes two bytes, the gap before it less one takes one.
        (
            &[2, 12, 12, 0, 1, 0, 0, 2, 24, 0x80, 0x01, 0],
            &[0, 2, 12, 12, 0, 1, 0, 0, 2, 24, 103, 0],
        ),
    ];
    for (old, new) in cases {
        assert_eq!(to_new(old), new);
        assert_eq!(to_old(new), old);
        assert_eq!(read_task(old), read_task(new));
    }
}

#[test]
fn weights_in_both_kinds() {
    let cases: [(&[u8], &[u8]); 5] = [
        (&[0], &[0, 0]),
        (&[1, 0], &[0, 1, 0]),
        (&[1, 7], &[0, 1, 7]),
        (&[2, 0, 2], &[0, 2, 0, 1]),
        (&[4, 1, 2, 5, 7], &[0, 4, 1, 0, 2, 1]),
    ];
    let old_task = to_old(&plain());
    for (old, new) in cases {
        for task in [plain(), old_task.clone()] {
            assert_eq!(weights_to_new(&task, old), new);
            assert_eq!(weights_to_old(&task, new), old);
            assert_eq!(calls::check_new(&task, new), calls::check(&task, old));
        }
    }
    assert_eq!(calls::check_new(&plain(), &[0, 1, 2]), done(0));
    assert_eq!(calls::check_new(&plain(), &[0, 1, 0]), 1 << 32);
}

/// Only the number 0 makes a task file a new one, and 0 has one form.
#[test]
fn kinds_by_the_first_number() {
    for byte in 0..=255u8 {
        let expected = if byte == 0 { Kind::New } else { Kind::Old };
        for behind in [&[][..], &[0], &[1], &[128, 0]] {
            assert_eq!(kind_of(&joined(&[byte], behind)), expected);
        }
    }
    assert_eq!(kind_of(&[]), Kind::Old);
    let badly_formed: [(&[u8], u64); 6] = [
        (&[], 1),
        (&[0x80], 1),
        (&[0x80, 0x80], 1),
        (&[0x80, 0x00], 12),
        (&[0x80, 0x80, 0x00], 12),
        (&[0x80, 0x80, 0x80], 13),
    ];
    for (front, expected) in badly_formed {
        for call in [calls::to_new, calls::to_old, calls::mend, calls::dropped] {
            assert_eq!(call(front, &mut []), REFUSED + expected);
        }
        for call in [calls::check, calls::check_new] {
            assert_eq!(call(front, &[]), REFUSED + expected);
            assert_eq!(call(&plain(), front), REFUSED + expected);
        }
    }
}

/// A new file where an old one is due is 2, an old one where a new one is due is 3, both at 0.
#[test]
fn the_other_kind_is_refused() {
    let (old, new) = (to_old(&plain()), plain());
    let mut room = [7; 20];
    assert_eq!(calls::to_new(&new, &mut room), REFUSED + 2);
    assert_eq!(calls::to_old(&old, &mut room), REFUSED + 3);
    assert_eq!(room, [7; 20]);
    for (due, file, refusal) in [
        (Kind::Old, &new, Refusal::Limit),
        (Kind::New, &old, Refusal::Range),
    ] {
        let fault = read_task_file_of(due, file).expect_err("the other kind");
        let part = fault.part.expect("it has a place");
        assert_eq!((fault.refusal, part.bytes), (refusal, 0..1));
    }
    // The first number of an old file decides, however long it is.
    let long = read_task_file_of(Kind::New, &[0x80, 0x80, 0x01, 0]).expect_err("no mark");
    assert_eq!(long.refusal, Refusal::Range);
    assert_eq!(long.part.map(|part| part.bytes), Some(0..3));
    // Old weights that list nothing are the mark of new ones, which then end before their count.
    let mut words = [7; 2];
    let judged: [(&[u8], u64, [u64; 2]); 4] = [
        (&[0], 1, [1, 0]),
        (&[1, 2], 3, [0, 1]),
        (&[0x80, 0x01, 0], 3, [0, 2]),
        (&[0xFF, 0xFF, 0x7F], 3, [0, 3]),
    ];
    for (weights, expected, part) in judged {
        let refused = calls::weights_to_old(&new, weights, &mut room);
        assert_eq!(refused, REFUSED + expected);
        assert_eq!(calls::check_new(&new, weights), REFUSED + expected);
        assert_eq!(calls::display_new(&new, weights, &mut words), 1 << 32);
        assert_eq!(words, part);
    }
    // New weights are old ones that list nothing and go on.
    assert_eq!(calls::check(&new, &[0, 1, 2]), REFUSED + 5);
    let refused = calls::weights_to_new(&new, &[0, 1, 2], &mut room);
    assert_eq!(refused, REFUSED + 5);
    assert_eq!(room, [7; 20]);
}

/// A file, the number of its refusal, the place, and the bytes that are shown.
type Case = (&'static [u8], u64, usize, &'static [u8]);

fn assert_fault<Read>(read: Result<Read, Fault>, file: File, bytes: &[u8], case: &Case) {
    let fault = read.err().expect("it is refused");
    let part = fault.part.expect("it has a place");
    let shown = &bytes[part.bytes.clone()];
    let found = (fault.refusal.number(), part.bytes.start, shown);
    assert_eq!(found, (case.1, case.2, case.3), "{bytes:x?}");
    assert_eq!(part.file, file, "{bytes:x?}");
}

fn assert_tasks(head: &[u8], cases: &[Case]) {
    for case in cases {
        let (tail, number, place, shown) = *case;
        let task = joined(head, tail);
        assert_fault(read_task_file(&task), File::Task, &task, case);
        assert_fault(read_task_file_of(Kind::New, &task), File::Task, &task, case);
        assert_eq!(line(&task), format!("refused {number} at {place}\n"));
        assert_eq!(
            check_line(&task, &[]),
            format!("refused {number} at {place} in task\n")
        );
        let mut words = [7; 2];
        for call in [calls::display, calls::display_new] {
            assert_eq!(call(&task, &[], &mut words), done(0));
            assert_eq!(words, [place as u64, shown.len() as u64]);
        }
        for call in [calls::to_old, calls::mend, calls::dropped] {
            assert_eq!(call(&task, &mut []), REFUSED + number);
        }
        for call in [calls::silence, calls::weights_to_new, calls::weights_to_old] {
            assert_eq!(call(&task, &[], &mut []), REFUSED + number);
        }
        assert_eq!(calls::pair_fault(&task, &mut []), REFUSED + number);
        assert_eq!(calls::open(&task, &mut []), REFUSED + number);
    }
}

#[test]
fn places_in_new_tasks() {
    assert_tasks(
        &[0],
        &[
            (&[], 1, 1, &[]),
            (&[0], 2, 1, &[0]),
            (&[0x80, 0x00], 12, 1, &[0x80, 0x00]),
            (&[65], 2, 1, &[65]),
            (&[2, 2, 65], 2, 3, &[65]),
            (&[5, 64, 38, 63, 60, 61], 2, 6, &[61]),
            (&[2, 2, 2, 0, 2], 3, 5, &[2]),
        ],
    );
    // Features 4 to 7 are pairs.
    assert_tasks(
        &HEAD,
        &[
            (&[], 1, 8, &[]),
            (&[1], 1, 9, &[]),
            (&[1, 3], 3, 9, &[3]),
            (&[1, 8], 3, 9, &[8]),
            (&[2, 4], 1, 10, &[]),
            (&[2, 4, 3], 3, 10, &[3]),
            (&[2, 6, 1, 0], 3, 10, &[1]),
            (&[2, 7, 0], 3, 10, &[0]),
            (&[3, 4, 1, 1], 3, 11, &[1]),
            (&[3, 4, 0, 0x80, 0x00], 12, 11, &[0x80, 0x00]),
            (&[3, 4, 0, 0x80, 0x80, 0x80], 13, 11, &[0x80, 0x80, 0x80]),
            // Sums of more than sixteen bits, and the largest gap.
            (&[2, 4, 0x80, 0x80, 0x04], 3, 10, &[0x80, 0x80, 0x04]),
            (&[2, 4, 0xFF, 0xFF, 0x7F], 3, 10, &[0xFF, 0xFF, 0x7F]),
            // A count that can't be met shows where the range ends.
            (&[0xFF, 0xFF, 0x7F, 4, 0, 0, 0, 0], 3, 15, &[0]),
            // Entries aren't listed by gaps.
            (&[0, 1, 2, 1, 0, 0, 1, 0, 0], 4, 14, &[1]),
        ],
    );
    assert_tasks(
        &WIDE,
        &[
            (&[2, 24, 0x8F, 0x01], 3, 10, &[0x8F, 0x01]),
            (&[2, 0xA7, 0x01, 0], 3, 11, &[0]),
            (&[1, 0xA8, 0x01], 3, 9, &[0xA8, 0x01]),
        ],
    );
    // The last pairs of both.
    assert_eq!(read_task(&joined(&HEAD, &[2, 4, 2, 0])), held());
    let last = read_numbers(&joined(&WIDE, &[2, 24, 0x8E, 0x01, 0]));
    assert_eq!(last.map(|task| task.pairs), Ok(vec![24, 167]));
}

/// What is said of a start that holds a pair.
fn held() -> Result<Task, Refusal> {
    Err(Refusal::StartHoldsPair)
}

#[test]
fn places_in_new_weights() {
    let cases: [Case; 14] = [
        (&[], 1, 0, &[]),
        (&[0x80, 0x00], 12, 0, &[0x80, 0x00]),
        (&[2, 0, 2], 3, 0, &[2]),
        (&[0], 1, 1, &[]),
        (&[0, 0x80], 1, 1, &[0x80]),
        (&[0, 1], 1, 2, &[]),
        (&[0, 1, 8], 3, 2, &[8]),
        (&[0, 2, 7, 0], 3, 3, &[0]),
        (&[0, 2, 0, 7], 3, 3, &[7]),
        (&[0, 2, 0, 0xFF, 0xFF, 0x7F], 3, 3, &[0xFF, 0xFF, 0x7F]),
        (&[0, 3, 0, 5, 1], 3, 4, &[1]),
        (&[0, 2, 0, 0x81, 0x00], 12, 3, &[0x81, 0x00]),
        (&[0, 2, 0, 0x81, 0x80, 0x80], 13, 3, &[0x81, 0x80, 0x80]),
        (&[0, 9, 0, 0, 0, 0, 0, 0, 0, 0, 0], 3, 10, &[0]),
    ];
    for case in &cases {
        let (weights, number, place, shown) = *case;
        for task in [plain(), to_old(&plain())] {
            let read = read_both(Kind::New, &task, weights);
            assert_fault(read, File::Weights, weights, case);
            assert_eq!(calls::check_new(&task, weights), REFUSED + number);
            let converted = calls::weights_to_old(&task, weights, &mut []);
            assert_eq!(converted, REFUSED + number);
            let mut words = [7; 2];
            assert_eq!(calls::display_new(&task, weights, &mut words), 1 << 32);
            assert_eq!(words, [place as u64, shown.len() as u64]);
        }
    }
    assert_eq!(calls::check_new(&plain(), &[0, 0, 0]), REFUSED + 5);
    assert_eq!(calls::check_new(&plain(), &[0, 2, 0, 6, 0]), REFUSED + 5);
}

/// 5, then 6, then 7 by operator, then 8; weights behind a task that is wholly judged, then 8.
#[test]
fn refusals_in_their_order() {
    let judged: [(&[u8], u64); 5] = [
        (&[0, 2, 2, 2, 1, 1, 0, 0, 1, 7, 1, 1, 0, 1, 0, 0], 5),
        (&[0, 2, 2, 2, 1, 1, 0, 0, 1, 7, 1, 1, 0, 1, 0], 6),
        (&[0, 2, 2, 2, 0, 0, 1, 0, 1, 7, 1, 1, 0, 0, 1], 7),
        (&[0, 2, 2, 2, 0, 0, 1, 0, 1, 7, 0], 8),
        (&[0, 2, 2, 2, 0, 0, 1, 0, 4, 4, 0, 0, 0, 0], 6),
    ];
    for (file, expected) in judged {
        assert_eq!(calls::to_old(file, &mut []), REFUSED + expected);
        if let Ok(task) = read_numbers(file) {
            assert_eq!(calls::to_new(&task.file(), &mut []), REFUSED + expected);
        }
        // Bad weights and no room are judged behind the task.
        let weights = if expected == 8 { &[0][..] } else { &[] };
        let refused = calls::weights_to_new(file, weights, &mut []);
        assert_eq!(refused, REFUSED + expected);
    }
    let mut room = [7; 2];
    assert_eq!(
        calls::weights_to_old(&plain(), &[0, 1, 8], &mut []),
        REFUSED + 3
    );
    assert_eq!(
        calls::weights_to_old(&plain(), &[0, 1, 7], &mut []),
        REFUSED + 8
    );
    assert_eq!(
        calls::weights_to_new(&plain(), &[2, 1, 1], &mut []),
        REFUSED + 4
    );
    assert_eq!(
        calls::weights_to_new(&plain(), &[0], &mut room[..1]),
        REFUSED + 8
    );
    assert_eq!(room, [7; 2]);
    assert_eq!(calls::weights_to_new(&plain(), &[0], &mut room), done(2));
    assert_eq!(room, [0, 0]);
}

/// Room that is too short stays as it was, and so does what lies past the file.
fn holds_in_every_room(call: impl Fn(&mut [u8]) -> u64, due: &[u8]) {
    for length in 0..due.len() + 3 {
        let mut room = vec![7; length];
        let answer = call(&mut room);
        if length < due.len() {
            assert_eq!((answer, room), (REFUSED + 8, vec![7; length]));
        } else {
            let rest = vec![7; length - due.len()];
            assert_eq!((answer, room), (done(due.len()), [due, &rest].concat()));
        }
    }
}

#[test]
fn rooms_of_every_length() {
    let mut generator = Generator::new(0x6B01);
    for _ in 0..200 {
        let task = scaled_task(&mut generator, TINY);
        let (old, new) = (task.file_of(Kind::Old), task.file_of(Kind::New));
        holds_in_every_room(|room| calls::to_new(&old, room), &new);
        holds_in_every_room(|room| calls::to_old(&new, room), &old);
        let weights = loose_weights(&mut generator, count_features(&task.sizes));
        let (was, is) = (
            weight_file_of(Kind::Old, &weights),
            weight_file_of(Kind::New, &weights),
        );
        for task in [old, new] {
            holds_in_every_room(|room| calls::weights_to_new(&task, &was, room), &is);
            holds_in_every_room(|room| calls::weights_to_old(&task, &is, room), &was);
        }
    }
}

/// An accepted task of any scale, a bay's, or one about the limits.
fn any_task(generator: &mut Generator) -> Task {
    match generator.below(12) {
        0 => {
            let shape = generator.choose(&shapes_within(9));
            bay(generator, shape).task()
        }
        1 => {
            let edges = [&NUMBER_EDGES[..], &LIBRARY_EDGES].concat();
            let sizes = generator.choose(&edges);
            accepted_task(generator, sizes, 2)
        }
        _ => {
            let scale = generator.choose(&[TINY, SMALL, MEDIUM]);
            scaled_task(generator, scale)
        }
    }
}

/// There and back gives the same bytes, by either way round, and both name the same task.
#[test]
fn there_and_back() {
    let mut generator = Generator::new(0x6B02);
    let mut shorter = 0;
    for _ in 0..1_500 {
        let task = any_task(&mut generator);
        let (old, new) = (task.file(), task.file_of(Kind::New));
        assert_eq!(to_new(&old), new);
        assert_eq!(to_old(&new), old);
        assert_eq!(to_old(&to_new(&old)), old);
        assert_eq!(to_new(&to_old(&new)), new);
        assert_eq!(read_task(&old), Ok(task.clone()));
        assert_eq!(read_task(&new), Ok(task.clone()));
        assert!(
            new.len() <= old.len() + 1,
            "gaps are no longer than features"
        );
        shorter += usize::from(new.len() < old.len());
        let weights = loose_weights(&mut generator, count_features(&task.sizes));
        let file = weight_file(&weights);
        let converted = weights_to_new(&new, &file);
        assert_eq!(weights_to_new(&old, &file), converted);
        assert_eq!(weights_to_old(&old, &converted), file);
        let back = weights_to_old(&new, &converted);
        assert_eq!(weights_to_new(&new, &back), converted);
        let count = count_features(&task.sizes);
        assert_eq!(read_weights(Kind::New, &converted, count), Ok(weights));
    }
    assert!(shorter > 50, "{shorter}");
}

/// All features of the largest tasks: the first 128 of one byte, the next 16,256 of two, the others
/// and the count of three; by gaps all but the count are of one.
#[test]
fn the_longest_weights() {
    let count = count_features(LIBRARY_EDGES[1]);
    assert_eq!(count, 32_768);
    let all: Vec<usize> = (0..count).collect();
    let all = FeatureSet::of(count, &all);
    assert_eq!(weight_file(&all).len(), 81_795);
    assert_eq!(weight_file_of(Kind::New, &all).len(), 1 + 3 + 32_768);
}

/// All numbers of a file.
fn numbers(bytes: &[u8]) -> Vec<usize> {
    let mut reader = Reader::new(bytes);
    std::iter::from_fn(|| reader.number().ok())
        .map(|number| number as usize)
        .collect()
}

/// The features of a gap list: each is the sum of all numbers up to its own, and one for each gap.
fn summed(gaps: &[usize]) -> Vec<usize> {
    (0..gaps.len())
        .map(|last| gaps[..=last].iter().sum::<usize>() + last)
        .collect()
}

/// An old task file, from the sums of a new one's gaps.
fn by_sums(new: &[u8]) -> Vec<u8> {
    let mut numbers = numbers(new);
    assert_eq!(numbers.remove(0), 0);
    let pairs = 1 + 3 * numbers[0];
    let list = pairs + 1..pairs + 1 + numbers[pairs];
    let sums = summed(&numbers[list.clone()]);
    numbers.splice(list, sums);
    encode(&numbers)
}

#[test]
fn old_files_are_sums_of_gaps() {
    let mut generator = Generator::new(0x6B03);
    for _ in 0..1_000 {
        let task = any_task(&mut generator);
        let new = task.file_of(Kind::New);
        assert_eq!(by_sums(&new), task.file());
        assert_eq!(to_old(&new), by_sums(&new));
        let weights = loose_weights(&mut generator, count_features(&task.sizes));
        let converted = numbers(&weight_file_of(Kind::New, &weights));
        assert_eq!(converted[..2], [0, weights.members().len()]);
        assert_eq!(summed(&converted[2..]), weights.members());
    }
}

/// Gap lists about the edges of their range: refused 3 at the first sum that leaves it.
#[test]
fn sums_about_the_range() {
    let mut generator = Generator::new(0x6B04);
    let (mut within, mut past) = (0, 0);
    for _ in 0..3_000 {
        let sizes = sizes(&mut generator, SMALL);
        let mut task = accepted_task(&mut generator, &sizes, 3);
        task.pairs.clear();
        let singles: usize = sizes.iter().sum();
        let pairs = singles..count_features(&sizes);
        let file = encode(&edged_task(&mut generator, &task));
        let list = 2 + 3 * sizes.len();
        let numbers = numbers(&file);
        let gaps = &numbers[list + 1..list + 1 + numbers[list]];
        let outside = summed(gaps).iter().position(|sum| !pairs.contains(sum));
        let read = read_task_file(&file);
        match outside {
            Some(number) => {
                let fault = read.expect_err("a sum leaves the range");
                assert_eq!(fault.refusal, Refusal::Range);
                let place = encode(&numbers[..list + 1 + number]).len();
                assert_eq!(fault.part.map(|part| part.bytes.start), Some(place));
                past += 1;
            }
            None => {
                let refusal = read.err().map(|fault| fault.refusal.number());
                assert!([None, Some(6), Some(7)].contains(&refusal));
                assert_eq!(read_numbers(&file), read_numbers(&by_sums(&file)));
                within += 1;
            }
        }
    }
    assert!(within > 500 && past > 500, "{within} {past}");
}

/// The same for weights, whose range begins at 0.
#[test]
fn sums_of_weights_about_the_range() {
    let mut generator = Generator::new(0x6B05);
    let (mut within, mut past) = (0, 0);
    for _ in 0..3_000 {
        let count = generator.between(1, 300);
        let numbers = edged_weights(&mut generator, count);
        let sums = summed(&numbers[2..]);
        match read_weights(Kind::New, &encode(&numbers), count) {
            Ok(weights) => {
                assert_eq!(weights.members(), sums);
                within += 1;
            }
            Err(refusal) => {
                assert_eq!(refusal, Refusal::Range);
                assert!(sums.iter().any(|sum| *sum >= count));
                past += 1;
            }
        }
    }
    assert!(within > 500 && past > 500, "{within} {past}");
}

/// Gap lists always increase: 4 is given for entries alone, and for weights never.
#[test]
fn gap_lists_are_never_unordered() {
    let mut generator = Generator::new(0x6B06);
    let mut unordered = 0;
    for _ in 0..10_000 {
        let sizes = sizes(&mut generator, SMALL);
        let task = accepted_task(&mut generator, &sizes, 4);
        let file = damaged_file(&mut generator, &task.numbers_of(Kind::New));
        let fault = read_task_file_of(Kind::New, &file).err();
        if let Some(fault) = fault.filter(|fault| fault.refusal == Refusal::Order) {
            let place = fault.part.expect("it has a place").bytes.start;
            let before = numbers(&file[..place]);
            let list = 2 + 3 * before[1];
            assert!(before.len() > list + before[list], "behind the pairs");
            unordered += 1;
        }
        let count = count_features(&sizes);
        let weights = loose_weights(&mut generator, count);
        let numbers = weight_numbers_of(Kind::New, &weights);
        let file = damaged_file(&mut generator, &numbers);
        let read = read_weights(Kind::New, &file, count);
        assert_ne!(read, Err(Refusal::Order));
    }
    assert!(unordered > 50, "{unordered}");
}

/// The same is said of a task file of each kind.
fn same_in_both<Said: PartialEq + std::fmt::Debug>(task: &Task, said: impl Fn(&[u8]) -> Said) {
    let [old, new] = Kind::BOTH.map(|kind| said(&task.file_of(kind)));
    assert_eq!(old, new, "{task:?}");
}

/// Every call that reads a task says the same of both kinds, refusals of pairs included.
#[test]
fn calls_on_both_kinds() {
    let mut generator = Generator::new(0x6B07);
    for _ in 0..1_000 {
        let scale = generator.choose(&[TINY, SMALL]);
        let sizes = paired_sizes(&mut generator, scale);
        let task = handmade_task(&mut generator, &sizes, 6);
        let count = count_features(&sizes);
        let weights = loose_weights(&mut generator, count);
        let (old, new) = (weight_file(&weights), weight_file_of(Kind::New, &weights));
        let marks = marks(&mut generator, sizes.len());
        same_in_both(&task, |file| {
            let mut room = vec![7; 1 + 3 * sizes.len() + (count + 1) * count.div_ceil(64)];
            (calls::open(file, &mut room), room)
        });
        same_in_both(&task, line);
        same_in_both(&task, |file| check_line(file, &old));
        same_in_both(&task, |file| calls::check(file, &old));
        same_in_both(&task, |file| calls::check_new(file, &new));
        assert_eq!(
            calls::check(&task.file(), &old),
            calls::check_new(&task.file(), &new)
        );
        same_in_both(&task, |file| {
            let mut words = [7; 3];
            (calls::pair_fault(file, &mut words), words)
        });
        same_in_both(&task, |file| {
            let mut room = vec![7; 500];
            (calls::silence(file, &marks, &mut room), room)
        });
        let list = weight_file(&dropped(&task));
        for kind in Kind::BOTH {
            let file = task.file_of(kind);
            let kept = mended(&task).file_of(kind);
            assert!(kept.len() <= file.len(), "mending lengthens no file");
            assert_eq!(written(|room| calls::mend(&file, room)), kept);
            assert_eq!(written(|room| calls::dropped(&file, room)), list);
        }
    }
}

/// A partial file has one kind: a mark in front of it is too few variables.
#[test]
fn partial_files_and_bays_have_one_kind() {
    let mut generator = Generator::new(0x6B08);
    for _ in 0..300 {
        let partial = scaled_partial(&mut generator, TINY);
        let file = miskinded_file(Kind::Old, &partial.numbers());
        assert_eq!(calls::check_partial(&file, &[0]), REFUSED + 2);
        assert_eq!(calls::check_partial_new(&file, &[0, 0]), REFUSED + 2);
        assert_eq!(calls::build_partial(&file, &mut []), REFUSED + 2);
        let shape = generator.choose(&shapes_within(4));
        let bay = bay(&mut generator, shape);
        let file = miskinded_file(Kind::Old, &bay.numbers());
        assert_eq!(calls::build(&file, &mut []), REFUSED + 2);
        // The pairs of a partial file that silencing writes stand as they are.
        let task = bay.task();
        let named = silenced(&task, &vec![1; task.sizes.len()]).expect("small bays fit");
        let list = 1 + 4 * task.sizes.len() + 1;
        assert_eq!(named.numbers()[list..list + task.pairs.len()], task.pairs);
    }
}

/// New weights beside a partial file count by its built task.
#[test]
fn new_weights_beside_partial_files() {
    let mut generator = Generator::new(0x6B09);
    for _ in 0..500 {
        let partial = scaled_partial(&mut generator, SMALL);
        let file = partial.file();
        let built = written(|room| calls::build_partial(&file, room));
        let task = read_task(&built).expect("built tasks are accepted");
        let count = count_features(&task.sizes);
        let weights = Workspace::of(&task).find();
        let weights = weights.unwrap_or_else(|| loose_weights(&mut generator, count));
        let (old, new) = (weight_file(&weights), weight_file_of(Kind::New, &weights));
        let verdict = calls::check_partial_new(&file, &new);
        assert_eq!(verdict, calls::check_partial(&file, &old));
        assert_eq!(verdict, calls::check_new(&built, &new));
        let last = encode(&[0, 1, count - 1]);
        assert!(calls::check_partial_new(&file, &last) < REFUSED);
        let past = encode(&[0, 1, count]);
        assert_eq!(calls::check_partial_new(&file, &past), REFUSED + 3);
        assert_eq!(
            calls::check_partial_new(&file, &old[..1]),
            refused_as_new(&old)
        );
    }
}

/// What the first number of an old weight file is refused as where a new one is due.
fn refused_as_new(old: &[u8]) -> u64 {
    match old[0] {
        0 => REFUSED + 1,
        1..128 => REFUSED + 3,
        _ => REFUSED + 1,
    }
}

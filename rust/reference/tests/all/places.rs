//! Where files are at fault and what is shown of them, worked out by hand.

use reference::calls::{self, done};
use reference::kinds::Kind;
use reference::line::{check_line, line};
use reference::operators::{Entry, Operator};
use reference::partial::Partial;
use reference::places::{read_bay_file, read_both, read_both_partial, read_task_file, Fault, File};

const REFUSED: u64 = 3 << 32;
const IN_WEIGHTS: u64 = 1 << 32;

/// A file, the number of its refusal, the place, and the bytes that are shown.
type Case = (&'static [u8], u64, usize, &'static [u8]);

/// Two variables of size 2 from 00 to 01, so far.
const HEAD: [u8; 7] = [2, 2, 2, 0, 0, 0, 1];

/// Two variables of size 12: 24 atoms, 168 features.
const WIDE: [u8; 7] = [2, 12, 12, 0, 0, 0, 1];

/// Two variables of size 2, the second named: from 00 to a 0 behind, so far.
const BEHIND: [u8; 8] = [2, 2, 2, 0, 1, 0, 0, 0];

fn joined(head: &[u8], tail: &[u8]) -> Vec<u8> {
    [head, tail].concat()
}

/// Case A.
fn plain() -> Vec<u8> {
    joined(&HEAD, &[0, 0])
}

/// The words that a call leaves in exactly the room due, behind its answer.
fn displayed(call: impl FnOnce(&mut [u64]) -> u64) -> (u64, usize, usize) {
    let mut room = [77, 77];
    let answer = call(&mut room);
    (answer, room[0] as usize, room[1] as usize)
}

fn display(task: &[u8], weights: &[u8]) -> (u64, usize, usize) {
    displayed(|room| calls::display(task, weights, room))
}

fn display_partial(partial: &[u8], weights: &[u8]) -> (u64, usize, usize) {
    displayed(|room| calls::display_partial(partial, weights, room))
}

fn display_bay(bay: &[u8]) -> (u64, usize, usize) {
    displayed(|room| calls::display_bay(bay, room))
}

/// Empty at the task's start.
const NOTHING: (u64, usize, usize) = (0, 0, 0);

/// The fault of a case, as far as the bytes of its own file say it.
fn assert_fault<Read>(read: Result<Read, Fault>, file: File, bytes: &[u8], case: &Case) {
    let fault = read.err().expect("it is refused");
    let part = fault.part.expect("it has a place");
    let found = (
        fault.refusal.number(),
        part.bytes.start,
        &bytes[part.bytes.clone()],
    );
    assert_eq!(found, (case.1, case.2, case.3), "{bytes:x?}");
    assert_eq!(part.file, file, "{bytes:x?}");
}

fn assert_tasks(head: &[u8], cases: &[Case]) {
    for case in cases {
        let (tail, number, place, shown) = *case;
        let task = joined(head, tail);
        for weights in [&[1, 2][..], &[], &[0x80, 0x00], &[1, 8]] {
            assert_fault(
                read_both(Kind::Old, &task, weights),
                File::Task,
                &task,
                case,
            );
            let words = (done(0), place, shown.len());
            assert_eq!(display(&task, weights), words, "{task:x?}");
            assert_eq!(calls::check(&task, weights), REFUSED + number);
            let refused = format!("refused {number} at {place} in task\n");
            assert_eq!(check_line(&task, weights), refused);
        }
        assert_fault(read_task_file(&task), File::Task, &task, case);
        assert_eq!(line(&task), format!("refused {number} at {place}\n"));
    }
}

#[test]
fn counts_and_sizes() {
    assert_tasks(
        &[],
        &[
            (&[], 1, 0, &[]),
            (&[0x82], 1, 0, &[0x82]),
            (&[0x82, 0x00], 12, 0, &[0x82, 0x00]),
            (&[0x82, 0x00, 9], 12, 0, &[0x82, 0x00]),
            (&[0x82, 0x82], 1, 0, &[0x82, 0x82]),
            (&[0x82, 0x82, 0x00], 12, 0, &[0x82, 0x82, 0x00]),
            (&[0x80, 0x80, 0x00, 7], 12, 0, &[0x80, 0x80, 0x00]),
            (&[0x82, 0x82, 0x82], 13, 0, &[0x82, 0x82, 0x82]),
            (&[0x82, 0x82, 0x82, 0x01], 13, 0, &[0x82, 0x82, 0x82]),
            (&[0x80, 0x80, 0x80, 0x00, 7], 13, 0, &[0x80, 0x80, 0x80]),
            // A mark is no count; behind it the file goes on.
            (&[0], 1, 1, &[]),
            (&[0, 0], 2, 1, &[0]),
            (&[0, 2], 1, 2, &[]),
            (&[65, 9], 2, 0, &[65]),
            (&[0x82, 0x01, 9], 2, 0, &[0x82, 0x01]),
            (&[0x82, 0x82, 0x01], 2, 0, &[0x82, 0x82, 0x01]),
            (&[0xFF, 0xFF, 0x7F, 9], 2, 0, &[0xFF, 0xFF, 0x7F]),
            (&[2], 1, 1, &[]),
            (&[2, 2], 1, 2, &[]),
            (&[2, 2, 0x82], 1, 2, &[0x82]),
            (&[2, 2, 0x82, 0x00], 12, 2, &[0x82, 0x00]),
            (&[2, 0x82, 0xFF, 0x01], 2, 1, &[0x82, 0xFF, 0x01]),
            (&[2, 0x82, 0xFF, 0x80, 0x01], 13, 1, &[0x82, 0xFF, 0x80]),
            (&[2, 2, 0, 0], 2, 2, &[0]),
            (&[2, 65, 2], 2, 1, &[65]),
            (&[2, 2, 0x82, 0x02], 2, 2, &[0x82, 0x02]),
        ],
    );
}

/// N is placed at the last size, whichever of them makes it large, and not before that is read.
#[test]
fn too_many_features() {
    assert_tasks(
        &[],
        &[
            (&[5, 64, 64, 64, 64, 31], 2, 5, &[31]),
            (&[5, 64, 64, 64, 64, 31, 0x80, 0x80, 0x80], 2, 5, &[31]),
            (&[5, 31, 64, 64, 64, 64, 0, 0, 0, 0, 0, 0], 2, 5, &[64]),
            (&[6, 64, 64, 64, 64, 64, 1, 9], 2, 6, &[1]),
            (&[6, 64, 64, 64, 64, 64], 1, 6, &[]),
            (&[6, 64, 64, 64, 64, 64, 0x81], 1, 6, &[0x81]),
            (&[6, 64, 64, 64, 64, 64, 0x81, 0x00], 12, 6, &[0x81, 0x00]),
            // 32,768 are taken, one more is not.
            (&[5, 63, 59, 38, 63, 63], 1, 6, &[]),
            (&[5, 64, 38, 63, 60, 61], 2, 5, &[61]),
            // 4,159 were too many before bays of sixteen.
            (&[2, 64, 63], 1, 3, &[]),
        ],
    );
}

#[test]
fn values() {
    assert_tasks(
        &[2, 2, 2],
        &[
            (&[], 1, 3, &[]),
            (&[0], 1, 4, &[]),
            (&[2, 9], 3, 3, &[2]),
            (&[0, 2], 3, 4, &[2]),
            (&[0, 0xFF, 0x7F], 3, 4, &[0xFF, 0x7F]),
            (&[0, 0x80, 0x80, 0x01], 3, 4, &[0x80, 0x80, 0x01]),
            (&[0, 0, 2], 3, 5, &[2]),
            (&[0, 0, 0], 1, 6, &[]),
            (&[0, 0, 0, 0x81], 1, 6, &[0x81]),
            (&[0, 0, 0, 0x81, 0x00], 12, 6, &[0x81, 0x00]),
            (&[0, 0, 0, 0x81, 0x81], 1, 6, &[0x81, 0x81]),
            (&[0, 0, 0, 0x81, 0x81, 0x81, 1], 13, 6, &[0x81, 0x81, 0x81]),
        ],
    );
}

#[test]
fn pairs() {
    assert_tasks(
        &HEAD,
        &[
            (&[], 1, 7, &[]),
            (&[0x81, 0x80], 1, 7, &[0x81, 0x80]),
            (&[0x81, 0x80, 0x80], 13, 7, &[0x81, 0x80, 0x80]),
            (&[1], 1, 8, &[]),
            (&[1, 3], 3, 8, &[3]),
            (&[1, 8], 3, 8, &[8]),
            (&[2, 5, 5], 4, 9, &[5]),
            (&[2, 5, 4, 9, 9], 4, 9, &[4]),
            // Out of range and not increasing: the range decides, at the same number.
            (&[2, 5, 3], 3, 9, &[3]),
            (&[2, 5], 1, 9, &[]),
            (&[2, 5, 0x86], 1, 9, &[0x86]),
            (&[3, 5, 6, 0x86, 0x00], 12, 10, &[0x86, 0x00]),
            // A count that can't be met shows where the pairs end or stop increasing.
            (&[0xFF, 0x7F, 5, 6, 7], 1, 12, &[]),
            (&[0xFF, 0x7F, 5, 6, 7, 0], 3, 12, &[0]),
            (&[0xFF, 0xFF, 0x7F, 5, 6, 7], 1, 13, &[]),
            (&[0xFF, 0xFF, 0x7F, 5, 6, 7, 0], 3, 13, &[0]),
        ],
    );
}

#[test]
fn operators() {
    assert_tasks(
        &joined(&HEAD, &[0]),
        &[
            (&[], 1, 8, &[]),
            (&[0x81, 0x00], 12, 8, &[0x81, 0x00]),
            (&[1], 1, 9, &[]),
            (&[1, 0], 3, 9, &[0]),
            (&[1, 3], 3, 9, &[3]),
            (&[1, 2, 2], 3, 10, &[2]),
            (&[1, 2, 1, 0, 0, 1], 4, 13, &[1]),
            (&[1, 2, 1, 0, 0, 0, 9, 9], 4, 13, &[0]),
            (&[1, 2, 1, 0, 0, 2], 3, 13, &[2]),
            (&[1, 1, 0, 2], 3, 11, &[2]),
            (&[1, 1, 0, 0, 2], 3, 12, &[2]),
            (&[1, 1, 0, 0, 0x82, 0x01], 3, 12, &[0x82, 0x01]),
            (&[1, 1, 0, 0], 1, 12, &[]),
            (&[2, 1, 0, 0, 1], 1, 13, &[]),
            (&[2, 1, 0, 0, 1, 0x80, 0x80], 1, 13, &[0x80, 0x80]),
            (
                &[2, 1, 0, 0, 1, 0x80, 0x80, 0x80],
                13,
                13,
                &[0x80, 0x80, 0x80],
            ),
            (&[0xFF, 0xFF, 0x7F, 1, 0, 0, 1], 1, 15, &[]),
        ],
    );
}

/// Places count bytes: numbers of two bytes stand before them and at them.
#[test]
fn numbers_of_two_bytes() {
    assert_tasks(
        &WIDE,
        &[
            (&[2, 0x82, 0x01, 0x81, 0x01], 4, 10, &[0x81, 0x01]),
            (&[2, 0x82, 0x01, 0x82, 0x01], 4, 10, &[0x82, 0x01]),
            (&[1, 0xA8, 0x01], 3, 8, &[0xA8, 0x01]),
            (&[2, 0x82, 0x01, 0xA7], 1, 10, &[0xA7]),
            (&[2, 0x82, 0x01, 24], 4, 10, &[24]),
            (&[2, 0x82, 0x01, 23], 3, 10, &[23]),
            (&[2, 0x82, 0x01, 0xA7, 0x01], 1, 12, &[]),
            (&[2, 0x82, 0x01, 0xA7, 0x81], 1, 10, &[0xA7, 0x81]),
            (
                &[2, 0x82, 0x01, 0xA7, 0x81, 0x00],
                12,
                10,
                &[0xA7, 0x81, 0x00],
            ),
            (
                &[2, 0x82, 0x01, 0xA7, 0x81, 0x81],
                13,
                10,
                &[0xA7, 0x81, 0x81],
            ),
            (&[1, 0x82, 0x01, 0x80, 0x01], 1, 12, &[]),
            (&[1, 0x82, 0x01, 0x80, 0x01, 0], 3, 12, &[0]),
        ],
    );
}

/// Three variables of size 64 and one of size 21: 213 atoms, 16,533 features.
const WIDER: [u8; 13] = [4, 64, 64, 64, 21, 0, 0, 0, 0, 0, 0, 0, 1];

/// Numbers of three bytes stand before a place and at it; 16,384 is the first, 16,533 out of range.
#[test]
fn numbers_of_three_bytes() {
    assert_tasks(
        &WIDER,
        &[
            (&[1, 0x95, 0x81, 0x01], 3, 14, &[0x95, 0x81, 0x01]),
            (&[1, 0x80, 0x80, 0x02], 3, 14, &[0x80, 0x80, 0x02]),
            (&[2, 0x81, 0x80, 0x01, 0x80, 0x80], 1, 17, &[0x80, 0x80]),
            (
                &[2, 0x81, 0x80, 0x01, 0x80, 0x80, 0x00],
                12,
                17,
                &[0x80, 0x80, 0x00],
            ),
            (
                &[2, 0x81, 0x80, 0x01, 0x80, 0x80, 0x80],
                13,
                17,
                &[0x80, 0x80, 0x80],
            ),
            (
                &[2, 0x81, 0x80, 0x01, 0x80, 0x80, 0x01],
                4,
                17,
                &[0x80, 0x80, 0x01],
            ),
            (&[2, 0x81, 0x80, 0x01, 0xFF, 0x7F], 4, 17, &[0xFF, 0x7F]),
            (&[2, 0x81, 0x80, 0x01, 0x7F], 3, 17, &[0x7F]),
            (&[2, 0xFF, 0x7F, 0x80, 0x80, 0x01], 1, 19, &[]),
            (&[2, 0x80, 0x80, 0x01, 0x94, 0x81, 0x01], 1, 20, &[]),
            (&[1, 0x94, 0x81, 0x01, 1, 4, 4], 3, 19, &[4]),
        ],
    );
}

/// The last of 16,384 operators, whose count takes three bytes, behind 65,536 bytes.
#[test]
fn a_later_operator() {
    let mut task = joined(&HEAD, &[0, 0x80, 0x80, 0x01]);
    task.extend([1, 0, 0, 1].repeat(16_384));
    assert_eq!(task.len(), 65_547);
    assert!(read_task_file(&task).is_ok());
    // Digit 1's 0 parts the ends, and no operator takes it away, until the last one does.
    assert_eq!(check_line(&task, &[1, 2]), "accepted\n");
    task[65_544] = 1;
    assert_eq!(check_line(&task, &[1, 2]), "rejected operator 16383\n");
    task[65_546] = 2;
    assert_eq!(check_line(&task, &[]), "refused 3 at 65546 in task\n");
    assert_eq!(display(&task, &[]), (0, 65_546, 1));
    task[65_546] = 0x82;
    assert_eq!(check_line(&task, &[]), "refused 1 at 65546 in task\n");
    task.extend([0x80, 0x01]);
    assert_eq!(display(&task, &[]), (0, 65_546, 3));
    assert_eq!(line(&task), "refused 8\n");
}

/// The last of as many operators as a number counts has a number of seven digits.
#[test]
fn the_last_operator() {
    let mut task = joined(&HEAD, &[0, 0xFF, 0xFF, 0x7F]);
    task.extend([1, 0, 0, 1].repeat(2_097_150));
    assert_eq!(display(&task, &[]), (0, 8_388_611, 0));
    assert_eq!(check_line(&task, &[]), "refused 1 at 8388611 in task\n");
    task.extend([1, 1, 0, 1]);
    assert_eq!(calls::check(&task, &[1, 2]), calls::broken(2_097_150));
    let told = check_line(&task, &[1, 2]);
    assert_eq!(told, "rejected operator 2097150\n");
}

/// The last of 128 operators, far behind.
#[test]
fn a_late_operator() {
    let mut task = joined(&WIDE, &[0, 0x80, 0x01]);
    task.extend([1, 0, 0, 0].repeat(128));
    assert_eq!(task.len(), 522);
    assert!(read_task_file(&task).is_ok());
    task[521] = 12;
    assert_eq!(line(&task), "refused 3 at 521\n");
    assert_eq!(display(&task, &[]), (0, 521, 1));
    task[521] = 0x80;
    assert_eq!(line(&task), "refused 1 at 521\n");
    task.push(0x02);
    assert_eq!(line(&task), "refused 3 at 521\n");
    assert_eq!(display(&task, &[]), (0, 521, 2));
}

/// Bytes left over, a held pair and an open one have no place, and the weights aren't read.
#[test]
fn task_faults_without_a_place() {
    let unplaced: [(&[u8], u64); 5] = [
        (&[2, 2, 2, 0, 0, 0, 1, 0, 0, 0], 5),
        (&[2, 2, 2, 0, 0, 0, 1, 0, 0, 0x80, 0x00], 5),
        (&[2, 2, 2, 0, 0, 0, 1, 1, 4, 0, 9], 5),
        (&[2, 2, 2, 0, 0, 0, 1, 1, 4, 0], 6),
        (&[2, 2, 2, 0, 0, 1, 0, 1, 7, 1, 1, 0, 0, 1], 7),
    ];
    for (task, number) in unplaced {
        let fault = read_task_file(task).expect_err("it is refused");
        assert_eq!((fault.refusal.number(), fault.part), (number, None));
        assert_eq!(line(task), format!("refused {number}\n"));
        for weights in [&[1, 2][..], &[], &[0x80, 0x00], &[1, 8], &[1, 2, 0]] {
            assert_eq!(display(task, weights), NOTHING);
            assert_eq!(check_line(task, weights), format!("refused {number}\n"));
        }
    }
}

#[test]
fn weights() {
    let cases: [Case; 19] = [
        (&[], 1, 0, &[]),
        (&[0x80], 1, 0, &[0x80]),
        (&[0x80, 0x00], 12, 0, &[0x80, 0x00]),
        (&[0x81, 0x80], 1, 0, &[0x81, 0x80]),
        (&[0x81, 0x80, 0x00], 12, 0, &[0x81, 0x80, 0x00]),
        (&[0x81, 0x80, 0x80, 0x01], 13, 0, &[0x81, 0x80, 0x80]),
        (&[1], 1, 1, &[]),
        (&[1, 8], 3, 1, &[8]),
        (&[1, 0x88, 0x01], 3, 1, &[0x88, 0x01]),
        (&[1, 0x88, 0x80, 0x01], 3, 1, &[0x88, 0x80, 0x01]),
        (&[2, 2, 2], 4, 2, &[2]),
        (&[2, 2, 1, 9], 4, 2, &[1]),
        (&[2, 2, 9], 3, 2, &[9]),
        (&[3, 0, 1], 1, 3, &[]),
        (&[3, 0, 1, 0x82], 1, 3, &[0x82]),
        (&[3, 0, 1, 0x82, 0x00], 12, 3, &[0x82, 0x00]),
        (&[0xFF, 0x7F], 1, 2, &[]),
        (&[0xFF, 0x7F, 0xFF, 0xFF], 1, 2, &[0xFF, 0xFF]),
        (
            &[0xFF, 0xFF, 0x7F, 0xFF, 0xFF, 0xFF],
            13,
            3,
            &[0xFF, 0xFF, 0xFF],
        ),
    ];
    for case in &cases {
        let (weights, number, place, shown) = *case;
        assert_fault(
            read_both(Kind::Old, &plain(), weights),
            File::Weights,
            weights,
            case,
        );
        let words = (IN_WEIGHTS, place, shown.len());
        assert_eq!(display(&plain(), weights), words, "{weights:x?}");
        assert_eq!(calls::check(&plain(), weights), REFUSED + number);
        assert_eq!(
            check_line(&plain(), weights),
            format!("refused {number} at {place} in weights\n")
        );
    }
}

/// With nothing refused, and with bytes left over, the part is empty at the task's start.
#[test]
fn weights_without_a_place() {
    for weights in [&[0][..], &[1, 2], &[1, 0], &[1, 2, 0], &[0, 0x80, 0x80]] {
        assert_eq!(display(&plain(), weights), NOTHING);
    }
    assert_eq!(check_line(&plain(), &[1, 2]), "accepted\n");
    assert_eq!(check_line(&plain(), &[1, 2, 0]), "refused 5\n");
    assert_eq!(check_line(&plain(), &[0, 0x80, 0x80]), "refused 5\n");
}

/// All atoms and 104 pairs, then one feature more that is no later, too late, or not there.
#[test]
fn many_weights() {
    let task = joined(&WIDE, &[0, 0]);
    let mut weights = vec![0x81, 0x01];
    weights.extend(0..128);
    assert_eq!(display(&task, &weights), (IN_WEIGHTS, 130, 0));
    let told = |last: &[u8]| check_line(&task, &joined(&weights, last));
    assert_eq!(told(&[127]), "refused 4 at 130 in weights\n");
    assert_eq!(told(&[0xA8, 0x01]), "refused 3 at 130 in weights\n");
    assert_eq!(told(&[0x80]), "refused 1 at 130 in weights\n");
    assert_eq!(told(&[0x80, 0x00]), "refused 12 at 130 in weights\n");
    assert_eq!(told(&[0x80, 0x81]), "refused 1 at 130 in weights\n");
    assert_eq!(told(&[0x80, 0x81, 0]), "refused 12 at 130 in weights\n");
    assert_eq!(told(&[0x80, 0x81, 1]), "refused 3 at 130 in weights\n");
    assert_eq!(told(&[0x80, 0x81, 0x80]), "refused 13 at 130 in weights\n");
    assert_eq!(told(&[0x80, 0x01, 0]), "refused 5\n");
    let last = joined(&weights, &[0xA8, 0x01]);
    assert_eq!(display(&task, &last), (IN_WEIGHTS, 130, 2));
}

#[test]
fn partial_files() {
    let cases: [Case; 37] = [
        (&[], 1, 0, &[]),
        (&[0x81, 0x00], 12, 0, &[0x81, 0x00]),
        (&[0x81, 0x81], 1, 0, &[0x81, 0x81]),
        (&[0x81, 0x81, 0x81], 13, 0, &[0x81, 0x81, 0x81]),
        (&[65], 2, 0, &[65]),
        (&[1, 0], 2, 1, &[0]),
        (&[1, 64], 2, 1, &[64]),
        (&[1, 0x80, 0x01], 2, 1, &[0x80, 0x01]),
        // The built task's features, at the last size, before the marks.
        (&[5, 63, 63, 63, 63, 30], 2, 5, &[30]),
        (&[5, 63, 63, 63, 63, 30, 2], 2, 5, &[30]),
        (&[6, 63, 63, 63, 63, 30, 1, 0x80, 0x00], 2, 6, &[1]),
        (&[6, 63, 63, 63, 63, 30], 1, 6, &[]),
        (&[5, 63, 63, 63, 63, 29, 2], 3, 6, &[2]),
        // Too many before bays of sixteen.
        (&[2, 63, 62, 2], 3, 3, &[2]),
        // Marks.
        (&[2, 2, 2], 1, 3, &[]),
        (&[2, 2, 2, 2], 3, 3, &[2]),
        (&[2, 2, 2, 0, 2], 3, 4, &[2]),
        (&[2, 2, 2, 0, 0x80, 0x01], 3, 4, &[0x80, 0x01]),
        (&[2, 2, 2, 0, 0x81], 1, 4, &[0x81]),
        (&[2, 2, 2, 0, 0x81, 0x00], 12, 4, &[0x81, 0x00]),
        (&[2, 2, 2, 0, 0x81, 0x81], 1, 4, &[0x81, 0x81]),
        (&[2, 2, 2, 0, 0x81, 0x81, 0x81], 13, 4, &[0x81, 0x81, 0x81]),
        // The start, and goal values of the named alone.
        (&[2, 2, 2, 0, 1, 2], 3, 5, &[2]),
        (&[2, 2, 2, 0, 1, 0], 1, 6, &[]),
        (&[2, 2, 2, 0, 1, 0, 0, 2], 3, 7, &[2]),
        (&[2, 2, 2, 0, 1, 0, 0], 1, 7, &[]),
        (&[2, 2, 2, 1, 1, 0, 0, 0, 2], 3, 8, &[2]),
        (&[2, 2, 2, 0, 0, 0, 0], 1, 7, &[]),
        (&[2, 2, 2, 0, 0, 0, 0, 1, 3], 3, 8, &[3]),
        // Pairs and operators by the file's own sizes.
        (&[2, 2, 2, 0, 1, 0, 0, 0, 1, 8], 3, 9, &[8]),
        (&[2, 2, 2, 0, 1, 0, 0, 0, 2, 7, 7], 4, 10, &[7]),
        (&[2, 2, 2, 0, 1, 0, 0, 0, 2, 7], 1, 10, &[]),
        (&[2, 2, 2, 0, 1, 0, 0, 0, 0, 1, 1, 2], 3, 11, &[2]),
        (&[2, 2, 2, 0, 1, 0, 0, 0, 0, 1, 1, 0, 0, 2], 3, 13, &[2]),
        (&[2, 2, 2, 0, 1, 0, 0, 0, 0, 1, 2, 0, 0, 0, 0], 4, 14, &[0]),
        (&[2, 2, 2, 0, 1, 0, 0, 0, 0, 0x81], 1, 9, &[0x81]),
        (
            &[2, 2, 2, 0, 1, 0, 0, 0, 0, 0x81, 0x00],
            12,
            9,
            &[0x81, 0x00],
        ),
    ];
    for case in &cases {
        let (partial, number, place, shown) = *case;
        for weights in [&[0][..], &[], &[1, 15]] {
            let read = read_both_partial(Kind::Old, partial, weights);
            assert_fault(read, File::Task, partial, case);
            let words = (done(0), place, shown.len());
            assert_eq!(display_partial(partial, weights), words, "{partial:x?}");
            assert_eq!(calls::check_partial(partial, weights), REFUSED + number);
        }
    }
}

#[test]
fn partial_faults_without_a_place() {
    let unplaced: [(&[u8], u64); 3] = [
        (&[0, 0, 0x80], 5),
        (&[1, 4, 0], 6),
        (&[1, 7, 1, 1, 0, 0, 1], 7),
    ];
    for (tail, number) in unplaced {
        let partial = joined(&BEHIND, tail);
        for weights in [&[0][..], &[], &[0x80, 0x00]] {
            assert_eq!(display_partial(&partial, weights), NOTHING);
            assert_eq!(calls::check_partial(&partial, weights), REFUSED + number);
        }
    }
}

/// The built task has 15 features.
#[test]
fn weights_beside_a_partial_file() {
    let good = joined(&BEHIND, &[0, 0]);
    assert_eq!(display_partial(&good, &[1, 14]), NOTHING);
    assert_eq!(display_partial(&good, &[1, 15]), (IN_WEIGHTS, 1, 1));
    assert_eq!(display_partial(&good, &[2, 9, 9]), (IN_WEIGHTS, 2, 1));
    assert_eq!(display_partial(&good, &[1, 0x8F, 0x00]), (IN_WEIGHTS, 1, 2));
    assert_eq!(display_partial(&good, &[]), (IN_WEIGHTS, 0, 0));
    assert_eq!(display_partial(&good, &[1, 14, 0]), NOTHING);
}

/// Five forgetting operators, of which the letter leaves one out; 19 features.
fn long_file(operators: usize) -> Vec<u8> {
    let lift = Operator {
        entries: [Entry {
            variable: 0,
            before: 0,
            after: 1,
        }]
        .into(),
    };
    Partial {
        sizes: vec![2, 3],
        start: vec![0, 0],
        goal: vec![Some(0), None],
        // The named goal with the silent 2: 5 + 2.
        pairs: vec![7],
        operators: vec![lift; operators],
    }
    .file()
}

/// More operators kept than a number counts is a limit without a place.
#[test]
fn too_many_kept_operators() {
    let most = long_file(2_097_147);
    assert_eq!(calls::check_partial(&most, &[1, 19]), REFUSED + 3);
    assert_eq!(display_partial(&most, &[1, 19]), (IN_WEIGHTS, 1, 1));
    let more = long_file(2_097_148);
    assert_eq!(calls::check_partial(&more, &[1, 19]), REFUSED + 2);
    assert_eq!(display_partial(&more, &[1, 19]), NOTHING);
}

#[test]
fn bays() {
    let cases: [Case; 30] = [
        (&[], 1, 0, &[]),
        (&[0x81], 1, 0, &[0x81]),
        (&[0x81, 0x00], 12, 0, &[0x81, 0x00]),
        (&[0x80, 0x80], 1, 0, &[0x80, 0x80]),
        (&[0x84, 0x80, 0x00, 4], 12, 0, &[0x84, 0x80, 0x00]),
        (&[0x84, 0x80, 0x80, 4], 13, 0, &[0x84, 0x80, 0x80]),
        (&[0x84, 0x80, 0x01], 2, 0, &[0x84, 0x80, 0x01]),
        (&[0, 2], 2, 0, &[0]),
        (&[10, 2], 2, 0, &[10]),
        (&[0x81, 0x01], 2, 0, &[0x81, 0x01]),
        (&[1], 1, 1, &[]),
        (&[1, 0], 2, 1, &[0]),
        (&[1, 10], 2, 1, &[10]),
        (&[1, 0x82, 0x00], 12, 1, &[0x82, 0x00]),
        // Rows times columns, at the columns.
        (&[1, 1], 2, 1, &[1]),
        (&[1, 1, 0, 0], 2, 1, &[1]),
        (&[2, 9, 0x80, 0x00], 2, 1, &[9]),
        (&[9, 2], 2, 1, &[2]),
        (&[4, 5], 2, 1, &[5]),
        (&[9, 9], 2, 1, &[9]),
        (&[1, 16], 2, 1, &[16]),
        (&[4, 4], 1, 2, &[]),
        (&[4, 4, 15, 16], 3, 3, &[16]),
        // Labels.
        (&[1, 2], 1, 2, &[]),
        (&[1, 2, 2], 3, 2, &[2]),
        (&[1, 2, 0, 0x81], 1, 3, &[0x81]),
        (&[1, 2, 0, 0x80, 0x01], 3, 3, &[0x80, 0x01]),
        (&[1, 2, 0, 1, 0], 1, 5, &[]),
        (&[1, 2, 0, 0, 0, 2], 3, 5, &[2]),
        (
            &[1, 2, 0, 1, 0, 0x81, 0x81, 0x81],
            13,
            5,
            &[0x81, 0x81, 0x81],
        ),
    ];
    for case in &cases {
        let (bay, number, place, shown) = *case;
        assert_fault(read_bay_file(bay), File::Task, bay, case);
        assert_eq!(display_bay(bay), (done(0), place, shown.len()), "{bay:x?}");
        assert_eq!(calls::build(bay, &mut []), REFUSED + number);
    }
    // Good, left over, two gaps, unequal lots.
    for bay in [
        &[1, 2, 0, 1, 1, 0][..],
        &[1, 2, 0, 1, 1, 0, 0x80],
        &[1, 2, 0, 0, 1, 0],
        &[1, 3, 0, 1, 1, 0, 2, 2],
    ] {
        assert_eq!(display_bay(bay), NOTHING);
    }
}

/// Fewer than two words are refused whatever the files are, and stay; further words stay too.
#[test]
fn room() {
    let good = plain();
    let partial = joined(&BEHIND, &[0, 0]);
    let bay = [1, 2, 0, 1, 1, 0];
    type Call<'a> = &'a dyn Fn(&mut [u64]) -> u64;
    let calls: [(Call, u64, [u64; 2]); 9] = [
        (&|room| calls::display(&good, &[1, 2], room), 0, [0, 0]),
        (
            &|room| calls::display(&good, &[1, 9], room),
            IN_WEIGHTS,
            [1, 1],
        ),
        (&|room| calls::display(&[2, 65], &[], room), 0, [1, 1]),
        (
            &|room| calls::display_partial(&partial, &[0], room),
            0,
            [0, 0],
        ),
        (
            &|room| calls::display_partial(&partial, &[0x80], room),
            IN_WEIGHTS,
            [0, 1],
        ),
        (
            &|room| calls::display_partial(&[1, 2, 2], &[], room),
            0,
            [2, 1],
        ),
        (&|room| calls::display_bay(&bay, room), 0, [0, 0]),
        (&|room| calls::display_bay(&bay[..4], room), 0, [4, 0]),
        (
            &|room| calls::display_bay(&[1, 0x80, 0x00], room),
            0,
            [1, 2],
        ),
    ];
    for (call, answer, words) in calls {
        for length in 0..2 {
            let mut room = vec![7; length];
            assert_eq!(call(&mut room), REFUSED + 8);
            assert_eq!(room, vec![7; length]);
        }
        for length in 2..6 {
            let mut room = vec![7; length];
            assert_eq!(call(&mut room), answer);
            assert_eq!(room[..2], words);
            assert_eq!(room[2..], vec![7; length - 2]);
        }
    }
}

/// Too many bytes are refused before any number is read, so no place is said.
#[test]
fn lines_of_long_input() {
    assert_eq!(line(&[0; 8_192]), "refused 2 at 1\n");
    assert_eq!(line(&[0; 8_193]), "refused 8\n");
    let mut full = joined(&HEAD, &[0, 0xFF, 0x7F]);
    full.extend([1, 0, 0, 1].repeat(2_045));
    assert_eq!(full.len(), 8_190);
    assert_eq!(line(&full), "refused 1 at 8190\n");
    full.extend([1, 0x80]);
    assert_eq!(line(&full), "refused 1 at 8191\n");
    assert_eq!(line(&joined(&full, &[0])), "refused 8\n");
}

//! Refusal numbers and their order.

use reference::calls;
use reference::features::count_features;
use reference::limits::LARGEST;
use reference::line::line;
use reference::numbers::{encode, write_number, Reader};
use reference::refusal::Refusal;
use reference::sample::tasks::PROGRAM_EDGES;
use reference::task::{read_task, Task};
use reference::workspace::{words_due, Record};

const REFUSED: u64 = 3 << 32;

fn number(bytes: &[u8]) -> Result<u64, Refusal> {
    Reader::new(bytes).number()
}

#[test]
fn numbers_as_printed() {
    assert_eq!(number(&[0x80, 0x01]), Ok(128));
    assert_eq!(number(&[0xFF, 0x7F]), Ok(16_383));
    assert_eq!(number(&[0x80, 0x80, 0x01]), Ok(16_384));
    assert_eq!(number(&[0xFF, 0xFF, 0x7F]), Ok(2_097_151));
    assert_eq!(number(&[0x80, 0x00]), Err(Refusal::NotShortest));
    assert_eq!(number(&[0x80, 0x80, 0x00]), Err(Refusal::NotShortest));
    assert_eq!(number(&[0xFF, 0xFF, 0x00]), Err(Refusal::NotShortest));
    assert_eq!(number(&[0x80, 0x80, 0x80]), Err(Refusal::MoreFollows));
    assert_eq!(number(&[0x80, 0x80, 0x80, 0x01]), Err(Refusal::MoreFollows));
    assert_eq!(number(&[]), Err(Refusal::InputEnds));
    assert_eq!(number(&[0x80]), Err(Refusal::InputEnds));
    assert_eq!(number(&[0x80, 0x80]), Err(Refusal::InputEnds));
    assert_eq!(LARGEST, 2_097_151);
}

/// A byte behind the first decides alone: 0 has a shorter form, and a third byte of 128 or more
/// asks for a fourth.
#[test]
fn forms_that_are_refused() {
    for first in 128..=255u8 {
        assert_eq!(number(&[first]), Err(Refusal::InputEnds));
        for behind in [&[][..], &[0], &[1], &[128]] {
            let bytes = [&[first, 0], behind].concat();
            assert_eq!(number(&bytes), Err(Refusal::NotShortest));
        }
        for second in 128..=255u8 {
            assert_eq!(number(&[first, second]), Err(Refusal::InputEnds));
            assert_eq!(number(&[first, second, 0]), Err(Refusal::NotShortest));
            for third in 128..=255u8 {
                for behind in [0, 1, 128] {
                    let bytes = [first, second, third, behind];
                    assert_eq!(number(&bytes[..3]), Err(Refusal::MoreFollows));
                    assert_eq!(number(&bytes), Err(Refusal::MoreFollows));
                }
            }
        }
    }
}

#[test]
fn refusals_have_their_numbers() {
    let numbers = [
        (Refusal::InputEnds, 1),
        (Refusal::Limit, 2),
        (Refusal::Range, 3),
        (Refusal::Order, 4),
        (Refusal::LeftOver, 5),
        (Refusal::StartHoldsPair, 6),
        (Refusal::NotClosed, 7),
        (Refusal::Room, 8),
        (Refusal::Workspace, 9),
        (Refusal::Gap, 10),
        (Refusal::Lots, 11),
        (Refusal::NotShortest, 12),
        (Refusal::MoreFollows, 13),
    ];
    for (refusal, number) in numbers {
        assert_eq!(refusal.number(), number);
    }
}

#[test]
fn every_number_comes_back() {
    for value in 0..=LARGEST {
        let mut bytes = Vec::new();
        write_number(value, &mut bytes);
        assert_eq!(number(&bytes), Ok(value as u64));
        let length = match value {
            0..128 => 1,
            128..16_384 => 2,
            _ => 3,
        };
        assert_eq!(bytes.len(), length);
    }
}

/// Every three bytes either begin with the form of a number, or are refused.
#[test]
fn only_shortest_forms() {
    for code in 0..1 << 24 {
        let [first, second, third, _] = u32::to_le_bytes(code);
        let bytes = [first, second, third];
        if let Ok(value) = number(&bytes) {
            assert!(bytes.starts_with(&encode(&[value as usize])));
        }
    }
}

fn task_refusal(bytes: &[u8]) -> u64 {
    match read_task(bytes) {
        Ok(_) => 0,
        Err(refusal) => refusal.number(),
    }
}

#[test]
fn task_numbers_are_judged_as_read() {
    let judged: [(&[u8], u64); 45] = [
        (&[], 1),
        // The mark of the new kind, behind which the variables are due.
        (&[0], 1),
        (&[0, 0], 2),
        (&[65], 2),
        (&[0x80, 0x00], 12),
        (&[0x80, 0x01], 2),
        (&[0x80], 1),
        (&[0x80, 0x80], 1),
        (&[0x80, 0x80, 0x00], 12),
        (&[0x80, 0x80, 0x01], 2),
        (&[0xFF, 0xFF, 0x7F], 2),
        (&[0x80, 0x80, 0x80], 13),
        (&[0x80, 0x80, 0x80, 0x00], 13),
        // A number's form comes before its limit, and a limit before the next number's form.
        (&[0xC1, 0x00], 12),
        (&[0xC1, 0x80, 0x00], 12),
        (&[0xC1, 0x80, 0x80], 13),
        (&[65, 0x80, 0x00], 2),
        (&[1], 1),
        (&[1, 0], 2),
        (&[1, 65], 2),
        // N is judged after the last size, not before.
        (&[6, 64, 64, 64, 64, 64], 1),
        (&[6, 64, 64, 64, 64, 64, 0], 2),
        (&[6, 64, 64, 64, 64, 64, 1], 2),
        (&[5, 64, 64, 64, 64, 31], 2),
        (&[5, 64, 64, 64, 64, 30], 1),
        // Too many features before bays of sixteen.
        (&[2, 64, 63], 1),
        (&[2, 64, 62], 1),
        (&[1, 2, 2], 3),
        (&[1, 2, 1, 2], 3),
        (&[1, 2, 1, 1], 1),
        (&[1, 2, 1, 1, 0], 1),
        (&[1, 2, 1, 1, 0, 0], 0),
        (&[1, 2, 1, 1, 0, 0, 0x80], 5),
        // With one variable no feature is a pair.
        (&[1, 2, 1, 1, 1], 1),
        (&[1, 2, 1, 1, 1, 2], 3),
        (&[1, 2, 1, 1, 0, 1, 0], 3),
        (&[1, 2, 1, 1, 0, 1, 2], 3),
        (&[1, 2, 1, 1, 0, 1, 1, 1], 3),
        (&[1, 2, 1, 1, 0, 1, 1, 0, 2], 3),
        (&[1, 2, 1, 1, 0, 1, 1, 0, 1, 2], 3),
        (&[1, 2, 1, 1, 0, 1, 1, 0, 1], 1),
        (&[1, 2, 1, 1, 0, 1, 1, 0, 1, 0], 0),
        (&[2, 2, 2, 0, 0, 0, 0, 2, 4, 4], 4),
        // Out of range and not increasing: the range decides.
        (&[2, 2, 2, 0, 0, 0, 0, 2, 4, 3], 3),
        (&[2, 2, 2, 0, 0, 0, 0, 1, 8], 3),
    ];
    for (bytes, expected) in judged {
        assert_eq!(task_refusal(bytes), expected, "{bytes:?}");
    }
}

#[test]
fn entries_are_judged_as_read() {
    let head = [2, 2, 2, 0, 0, 0, 0, 0, 1];
    let judged: [(&[u8], u64); 15] = [
        (&[3], 3),
        (&[0x83, 0x00], 12),
        (&[0x83, 0x80, 0x01], 3),
        (&[1, 0x80, 0x80], 1),
        (&[1, 0x80, 0x80, 0x00], 12),
        (&[1, 0x80, 0x80, 0x80], 13),
        (&[1, 0, 0x80], 1),
        (&[2, 0, 0, 0, 0], 4),
        (&[2, 0, 0, 0, 2], 3),
        (&[2, 1, 0, 0, 0, 9, 9], 4),
        (&[2, 0, 2, 9], 3),
        (&[2, 0, 0, 0], 1),
        (&[2, 0, 0, 0, 1, 1], 1),
        (&[2, 0, 0, 0, 1, 1, 1], 0),
        (&[2, 0, 0, 0, 1, 1, 1, 1], 5),
    ];
    for (tail, expected) in judged {
        let bytes = [&head[..], tail].concat();
        assert_eq!(task_refusal(&bytes), expected, "{tail:?}");
    }
}

#[test]
fn left_over_then_start_then_closed_then_room() {
    let all = [2, 2, 2, 1, 1, 0, 0, 1, 7, 1, 1, 0, 0, 1];
    let left_over = [&all[..], &[0]].concat();
    assert_eq!(task_refusal(&left_over), 5);
    assert_eq!(task_refusal(&all), 6);
    let mut unclosed = all;
    unclosed[3] = 0;
    assert_eq!(task_refusal(&unclosed), 7);
    assert_eq!(calls::open(&unclosed, &mut []), REFUSED + 7);
    let mut accepted = unclosed;
    accepted[8] = 4;
    accepted[3] = 1;
    assert_eq!(task_refusal(&accepted), 0);
    let due = words_due(&[2, 2]);
    assert_eq!(due, 16);
    let mut room = vec![5; due - 1];
    assert_eq!(calls::open(&accepted, &mut room), REFUSED + 8);
    assert_eq!(room, vec![5; due - 1]);
}

/// Two variables of size 2, no pairs, no operators.
fn plain() -> Vec<u8> {
    vec![2, 2, 2, 0, 0, 0, 1, 0, 0]
}

#[test]
fn weights_are_read_after_the_task() {
    let judged: [(&[u8], u64); 16] = [
        (&[], REFUSED + 1),
        (&[1], REFUSED + 1),
        (&[0x80], REFUSED + 1),
        (&[0x80, 0x80], REFUSED + 1),
        (&[0x80, 0x00], REFUSED + 12),
        (&[1, 0x82, 0x00], REFUSED + 12),
        (&[1, 0x82, 0x80, 0x00], REFUSED + 12),
        (&[1, 0x82, 0x82, 0x01], REFUSED + 3),
        (&[1, 0x82, 0x82, 0x82], REFUSED + 13),
        (&[1, 0x82, 0x82, 0x82, 0x01], REFUSED + 13),
        (&[1, 8], REFUSED + 3),
        (&[2, 2, 2], REFUSED + 4),
        (&[2, 2, 1], REFUSED + 4),
        (&[1, 2, 0], REFUSED + 5),
        (&[0], 1 << 32),
        (&[1, 2], 0),
    ];
    for (weights, expected) in judged {
        assert_eq!(calls::check(&plain(), weights), expected, "{weights:?}");
        assert_eq!(calls::check(&[65], weights), REFUSED + 2);
    }
}

fn opened(bytes: &[u8]) -> Vec<u64> {
    let mut words = vec![0; 4_096];
    let result = calls::open(bytes, &mut words);
    assert!(result < 1 << 32);
    words.truncate(result as usize);
    words
}

#[test]
fn find_judges_workspace_then_room() {
    let words = opened(&plain());
    assert_eq!(calls::find(&words, &mut []), REFUSED + 8);
    assert_eq!(calls::find(&words[..15], &mut []), REFUSED + 9);
    assert_eq!(calls::find(&[], &mut []), REFUSED + 9);
    let mut room = [6, 6];
    assert_eq!(calls::find(&words, &mut room), 0);
    assert_eq!(room, [4, 6]);
    // Room is due even where the answer is none.
    let same = opened(&[2, 2, 2, 0, 0, 0, 0, 0, 0]);
    assert_eq!(calls::find(&same, &mut []), REFUSED + 8);
    let mut room = [6];
    assert_eq!(calls::find(&same, &mut room), 1 << 32);
    assert_eq!(room, [6]);
}

#[test]
fn words_that_are_not_well_formed() {
    let words = opened(&plain());
    let damages: [(usize, u64); 15] = [
        (0, 0),
        (0, 65),
        (0, u64::MAX),
        (1, 0),
        (1, 65),
        (3, 2),
        (5, 2),
        (6, 1 << 40),
        // Pairs: a single atom, an unused bit, one that the start holds.
        (7, 8),
        (7, 1 << 8),
        (7, 1 << 4),
        // Slots: a wrong least member, an unused bit.
        (8, 2),
        (9, 1),
        (8, 1 | 1 << 8),
        (15, 1 << 63),
    ];
    for (place, word) in damages {
        let mut damaged = words.clone();
        damaged[place] = word;
        assert_eq!(
            calls::find(&damaged, &mut [0]),
            REFUSED + 9,
            "{place} {word}"
        );
    }
    // Filled slots must not contain each other's indices, empty ones may be contained.
    let mut foreign = words.clone();
    foreign[8] = 0b11;
    assert_eq!(calls::find(&foreign, &mut [0]), 0);
    foreign[9] = 0b10;
    assert_eq!(calls::find(&foreign, &mut [0]), REFUSED + 9);
}

fn record(count: u64, variables: &[u64], befores: &[u64], afters: &[u64]) -> Record {
    Record {
        count,
        variables: variables.to_vec(),
        befores: befores.to_vec(),
        afters: afters.to_vec(),
    }
}

#[test]
fn operator_edits_are_judged_in_file_order() {
    let words = opened(&plain());
    let judged = [
        (record(0, &[], &[], &[]), REFUSED + 3),
        (record(3, &[], &[], &[]), REFUSED + 3),
        (record(65, &[], &[], &[]), REFUSED + 3),
        (record(u64::MAX, &[], &[], &[]), REFUSED + 3),
        (record(1, &[2], &[], &[]), REFUSED + 3),
        (record(1, &[1 << 32], &[], &[]), REFUSED + 3),
        (record(1, &[0], &[2], &[0]), REFUSED + 3),
        (record(1, &[0], &[1], &[2]), REFUSED + 3),
        (record(2, &[0], &[], &[]), REFUSED + 4),
        (record(2, &[1, 0], &[0, 9], &[0, 9]), REFUSED + 4),
        (record(2, &[1, 0], &[9, 9], &[0, 9]), REFUSED + 3),
        (record(2, &[1, 2], &[0, 0], &[0, 0]), REFUSED + 3),
        (record(1, &[], &[], &[]), 0),
        (record(1, &[0, 9, 9], &[0, 9], &[1, 9, 9, 9]), 0),
    ];
    for (record, expected) in judged {
        let mut edited = words.clone();
        assert_eq!(calls::add_operator(&mut edited, &record), expected);
        if expected != 0 {
            assert_eq!(edited, words);
        }
        let mut short = words[..15].to_vec();
        assert_eq!(calls::add_operator(&mut short, &record), REFUSED + 9);
        assert_eq!(short, words[..15]);
    }
}

#[test]
fn edits_against_pairs() {
    let words = opened(&[2, 2, 2, 0, 0, 0, 1, 1, 7, 0]);
    let mut edited = words.clone();
    let lift = record(1, &[0], &[0], &[1]);
    assert_eq!(calls::add_operator(&mut edited, &lift), REFUSED + 7);
    assert_eq!(calls::replace_start(&mut edited, &[1, 1]), REFUSED + 6);
    assert_eq!(calls::replace_start(&mut edited, &[1, 2]), REFUSED + 3);
    assert_eq!(calls::replace_start(&mut edited, &[1, 1, 0]), REFUSED + 3);
    assert_eq!(calls::replace_start(&mut edited, &[]), REFUSED + 3);
    assert_eq!(calls::replace_goal(&mut edited, &[1]), REFUSED + 3);
    assert_eq!(
        calls::replace_goal(&mut edited, &[u64::MAX, 1]),
        REFUSED + 3
    );
    assert_eq!(edited, words);
    // The goal may hold a listed pair.
    assert_eq!(calls::replace_goal(&mut edited, &[1, 1]), 0);
    assert_eq!(edited[5..7], [1, 1]);
    assert_eq!(calls::replace_start(&mut edited, &[1, 0]), 0);
    assert_eq!(edited[3..5], [1, 0]);
    assert_eq!(edited[7..], words[7..]);
    // An operator whose conditions already follow changes no word.
    let guarded = record(2, &[0, 1], &[0, 0], &[1, 0]);
    assert_eq!(calls::add_operator(&mut edited, &guarded), 0);
    let once = edited.clone();
    assert_eq!(calls::add_operator(&mut edited, &guarded), 0);
    assert_eq!(edited, once);
}

#[test]
fn bays_are_judged_as_read() {
    let judged: [(&[u8], u64); 55] = [
        (&[], 1),
        (&[0], 2),
        (&[10], 2),
        (&[16], 2),
        (&[0x80, 0x01], 2),
        (&[0x80, 0x00], 12),
        (&[1, 0x82, 0x80], 1),
        (&[1, 0x82, 0x80, 0x00], 12),
        (&[1, 0x82, 0x80, 0x80], 13),
        (&[1, 0x82, 0x80, 0x01], 2),
        (&[1, 0x82], 1),
        (&[1], 1),
        (&[1, 0], 2),
        // A side ends at nine, whatever the slots are.
        (&[1, 9], 1),
        (&[1, 10], 2),
        (&[1, 16], 2),
        (&[10, 1], 2),
        (&[1, 1], 2),
        // Sixteen slots and no more.
        (&[2, 5], 1),
        (&[2, 8], 1),
        (&[8, 2], 1),
        (&[3, 5], 1),
        (&[4, 4], 1),
        (&[2, 9], 2),
        (&[9, 2], 2),
        (&[3, 6], 2),
        (&[4, 5], 2),
        (&[9, 9], 2),
        // Labels go to fifteen.
        (&[4, 4, 15, 15], 1),
        (&[4, 4, 15, 16], 3),
        (&[3, 5, 14, 15], 3),
        (&[2, 8, 15, 0x90, 0x00], 12),
        (&[1, 2], 1),
        (&[1, 2, 2], 3),
        (&[1, 2, 0, 0], 1),
        (&[1, 2, 0, 0, 2], 3),
        // The gap, in the start and in the goal, before unequal lots.
        (&[1, 2, 0, 0, 0, 1], 10),
        (&[1, 2, 1, 1, 0, 1], 10),
        (&[1, 2, 0, 1, 1, 1], 10),
        (&[1, 2, 0, 1, 0, 0], 10),
        (&[1, 3, 1, 2, 2, 1, 1, 2], 10),
        (&[1, 3, 0, 1, 0, 0, 1, 2], 10),
        (&[1, 3, 0, 1, 1, 1, 2, 2], 10),
        // The gap alone: lots are equal.
        (&[1, 3, 1, 1, 2, 2, 1, 1], 10),
        (&[1, 3, 0, 0, 2, 2, 0, 0], 10),
        // Unequal lots: another lot, another number of two lots, the first lot or the last.
        (&[1, 3, 0, 1, 1, 0, 2, 2], 11),
        (&[1, 3, 0, 1, 2, 0, 1, 1], 11),
        (&[1, 3, 2, 0, 2, 1, 0, 2], 11),
        (&[2, 2, 0, 1, 1, 2, 2, 2, 1, 0], 11),
        (&[1, 2, 0, 0, 0, 1, 0], 5),
        (&[1, 3, 0, 1, 2, 0, 1, 1, 0], 5),
        (&[1, 3, 0, 1, 2, 0, 1, 3], 3),
        (&[1, 3, 0, 1, 1, 1, 1, 0], 8),
        (&[1, 2, 0, 1, 0, 1], 8),
        (&[1, 2, 0, 1, 0, 0x81, 0], 12),
    ];
    for (bytes, expected) in judged {
        let mut room = [3; 24];
        assert_eq!(
            calls::build(bytes, &mut room),
            REFUSED + expected,
            "{bytes:?}"
        );
        assert_eq!(room, [3; 24]);
    }
}

/// Two variables of size 2 and operators that do nothing, so that the file has the length.
fn task_of_length(length: usize) -> Vec<u8> {
    let operators = length - 10;
    let long = (0..4)
        .find(|long| (operators - 7 * long).is_multiple_of(4))
        .expect("some remainder fits");
    let short = (operators - 7 * long) / 4;
    let mut numbers = vec![2, 2, 2, 0, 0, 0, 1, 0, long + short];
    for _ in 0..long {
        numbers.extend([2, 0, 0, 0, 1, 0, 0]);
    }
    for _ in 0..short {
        numbers.extend([1, 0, 0, 1]);
    }
    encode(&numbers)
}

#[test]
fn line_judges_bytes_first_and_features_last() {
    let full = task_of_length(8_192);
    assert_eq!(full.len(), 8_192);
    assert_eq!(line(&full), "separated 1 2\n");
    assert_eq!(line(&task_of_length(8_193)), "refused 8\n");
    assert_eq!(line(&vec![0; 8_193]), "refused 8\n");
    // The first 0 is the mark of the new kind.
    assert_eq!(line(&vec![0; 8_192]), "refused 2 at 1\n");
    let wide = |sizes: &[usize], pairs: Vec<usize>| Task {
        sizes: sizes.to_vec(),
        start: vec![0; sizes.len()],
        goal: vec![1; sizes.len()],
        pairs,
        operators: vec![],
    };
    let (widest, too_wide) = (PROGRAM_EDGES[1], PROGRAM_EDGES[3]);
    assert_eq!(count_features(widest), 640);
    assert_eq!(line(&wide(widest, vec![]).file()), "separated 1 0\n");
    assert_eq!(count_features(too_wide), 641);
    assert_eq!(line(&wide(too_wide, vec![]).file()), "refused 8\n");
    assert_eq!(line(&wide(too_wide, vec![42]).file()), "refused 6\n");
}

#[test]
fn line_needs_room() {
    let mut room = [1; 14];
    let input = plain();
    assert_eq!(calls::line(&input, &mut room[..13]), REFUSED + 8);
    assert_eq!(room, [1; 14]);
    assert_eq!(calls::line(&input, &mut room), 14);
    assert_eq!(&room, b"separated 1 2\n");
    let mut room = *b"xxxxxxxxxxxxxxxxx";
    assert_eq!(calls::line(&[], &mut room), 15);
    assert_eq!(&room, b"refused 1 at 0\nxx");
    let mut room = [1; 14];
    assert_eq!(calls::line(&[], &mut room), REFUSED + 8);
    assert_eq!(room, [1; 14]);
}

/// Features of 0 to 32,767 are written; others are refused before the room is judged.
#[test]
fn weight_files_judge_range_then_room() {
    let written = |words: &[u64], length: usize| {
        let mut room = vec![7; length];
        let number = calls::weight_file(words, &mut room);
        (number, room)
    };
    assert_eq!(written(&[], 1), (1, vec![0]));
    assert_eq!(written(&[5], 4), (3, vec![2, 0, 2, 7]));
    assert_eq!(written(&[5], 2), (REFUSED + 8, vec![7, 7]));
    assert_eq!(written(&[0, 0, 1], 3), (3, vec![1, 0x80, 1]));
    let mut words = [0; 513];
    // 4,095 is 31 * 128 + 127, and one more was out of range before bays of sixteen.
    words[63] = 1 << 63;
    words[64] = 1;
    assert_eq!(written(&words, 5), (5, vec![2, 0xFF, 31, 0x80, 32]));
    // The last number of two bytes, and the first of three.
    words[255] = 1 << 63;
    words[256] = 1;
    let four = vec![4, 0xFF, 31, 0x80, 32, 0xFF, 0x7F, 0x80, 0x80, 1];
    assert_eq!(written(&words, 10), (10, four));
    words[..512].fill(0);
    // 32,767 is 16,384 + 127 * 128 + 127.
    words[511] = 1 << 63;
    assert_eq!(written(&words, 4), (4, vec![1, 0xFF, 0xFF, 1]));
    assert_eq!(written(&words, 3), (REFUSED + 8, vec![7; 3]));
    words[512] = 1;
    assert_eq!(written(&words, 4), (REFUSED + 3, vec![7; 4]));
    assert_eq!(written(&words, 0), (REFUSED + 3, vec![]));
}

//! Files cut, mistyped and misread at every number, held against what the library takes there.

use super::walk::Bounds;
use super::*;
use crate::library::{self, NO_WEIGHTS};
use crate::notation::Notation;

/// Sizes 2 and 64, so that numbers stand on both sides of 128; three pairs, two operators.
const TASK: &[u8] = &[
    2, 2, 64, 0, 1, 1, 0, 3, 67, 0x80, 1, 0xc1, 1, 2, 1, 0, 0, 1, 2, 0, 1, 0, 1, 5, 63,
];
/// Three variables of sizes 2, 3 and 2, the second of them silent; one pair, one operator.
const PARTIAL: &[u8] = &[
    3, 2, 3, 2, 1, 0, 1, 0, 2, 1, 1, 0, 1, 9, 1, 2, 0, 0, 1, 2, 1, 0,
];
const BAY: &[u8] = &[2, 3, 1, 2, 3, 4, 5, 0, 1, 2, 3, 5, 4, 0];
const WEIGHTS: &[u8] = &[3, 0, 2, 3];
/// Sizes 64, 64, 64, 64 and 2: 25,346 features, so that the pairs 16,384 and 25,345 and weights of the
/// same numbers have three bytes; no operator.
const LARGE: &[u8] = &[
    5, 64, 64, 64, 64, 2, 0, 0, 0, 0, 0, 1, 0, 0, 0, 0, 2, 0x80, 0x80, 1, 0x81, 0xc6, 1, 0,
];
const LARGE_WEIGHTS: &[u8] = &[3, 0, 0x80, 0x80, 1, 0x81, 0xc6, 1];
/// The same as new files: of the pairs 67, 128 and 193 the gaps less one are 60 and 64, of 16,384 and 25,345
/// it is 8,960, and of the weights 0, 2 and 3 they are 1 and 0.
const NEW_TASK: &[u8] = &[
    0, 2, 2, 64, 0, 1, 1, 0, 3, 67, 60, 64, 2, 1, 0, 0, 1, 2, 0, 1, 0, 1, 5, 63,
];
const NEW_LARGE: &[u8] = &[
    0, 5, 64, 64, 64, 64, 2, 0, 0, 0, 0, 0, 1, 0, 0, 0, 0, 2, 0x80, 0x80, 1, 0x80, 0x46, 0,
];
const NEW_WEIGHTS: &[u8] = &[0, 3, 0, 1, 0];
const NEW_LARGE_WEIGHTS: &[u8] = &[0, 3, 0, 0xff, 0x7f, 0x80, 0x46];
/// Document 01's case A: two variables of size 2, and no more; it is accepted.
const SMALL: &[u8] = &[2, 2, 2, 0, 0, 0, 1, 0, 0];
/// A partial file of which the same is true.
const SMALL_PARTIAL: &[u8] = &[2, 2, 2, 0, 1, 0, 0, 1, 0, 0];

const KINDS: [(Kind, &[u8]); 13] = [
    (Kind::Task, TASK),
    (Kind::Task, LARGE),
    (Kind::Task, NEW_TASK),
    (Kind::Task, NEW_LARGE),
    (Kind::TaskIn(Notation::Old), TASK),
    (Kind::TaskIn(Notation::New), NEW_TASK),
    (Kind::Partial, PARTIAL),
    (Kind::Bay, BAY),
    (Kind::Weights(Notation::Old, SMALL), WEIGHTS),
    (Kind::Weights(Notation::Old, NEW_LARGE), LARGE_WEIGHTS),
    (Kind::Weights(Notation::New, SMALL), NEW_WEIGHTS),
    (Kind::Weights(Notation::New, LARGE), NEW_LARGE_WEIGHTS),
    (Kind::PartialWeights(SMALL_PARTIAL), WEIGHTS),
];

/// The places at which numbers of a file begin, and its end.
fn places(file: &[u8]) -> Vec<usize> {
    let mut places = vec![0];
    while let Some(place) = places.last().filter(|place| **place < file.len()) {
        places.push(place + numbers::read(&file[*place..]).1);
    }
    places
}

fn names(kind: Kind, file: &[u8]) -> Vec<String> {
    let names = places(file).into_iter();
    let names = names.map(|place| walk::due(kind, file, place).map(|due| due.name));
    names.map(Option::unwrap_or_default).collect()
}

fn refusal(kind: Kind, file: &[u8]) -> Option<Fault> {
    match kind {
        Kind::Task => library::check(file, NO_WEIGHTS).err(),
        Kind::TaskIn(due) => library::converted(due.other(), file).err(),
        Kind::Partial => library::check_partial(file, NO_WEIGHTS).err(),
        Kind::Bay => library::build(file).err(),
        Kind::Weights(Notation::Old, task) => library::check(task, file).err(),
        Kind::Weights(Notation::New, task) => library::check_new(task, file).err(),
        Kind::PartialWeights(partial) => library::check_partial(partial, file).err(),
    }
}

fn words(kind: Kind, file: &[u8]) -> String {
    told(refusal(kind, file).unwrap(), kind, file).words()
}

#[test]
fn every_number_of_a_task_has_a_name() {
    let due = [
        "the count of variables or the 0 of a new task file",
        "the size of variable 0",
        "the size of variable 1",
        "the start value of variable 0",
        "the start value of variable 1",
        "the goal value of variable 0",
        "the goal value of variable 1",
        "the count of listed pairs",
        "the 1st of 3 listed pairs",
        "the 2nd of 3 listed pairs",
        "the 3rd of 3 listed pairs",
        "the count of operators",
        "the count of entries of operator 0",
        "the variable of the 1st entry of operator 0",
        "the value of variable 0 before operator 0",
        "the value of variable 0 after operator 0",
        "the count of entries of operator 1",
        "the variable of the 1st entry of operator 1",
        "the value of variable 0 before operator 1",
        "the value of variable 0 after operator 1",
        "the variable of the 2nd entry of operator 1",
        "the value of variable 1 before operator 1",
        "the value of variable 1 after operator 1",
        // Behind the last number nothing is due.
        "",
    ];
    assert_eq!(names(Kind::Task, TASK), due);
    // Where only an old file will do, it begins with its count.
    let old = names(Kind::TaskIn(Notation::Old), TASK);
    assert_eq!(old[0], "the count of variables");
    assert_eq!(old[1..], due[1..]);
}

// Behind its 0 a new task has the same numbers, but for the gaps.
#[test]
fn every_number_of_a_new_file_has_a_name() {
    let old = names(Kind::TaskIn(Notation::Old), TASK);
    let either = names(Kind::Task, NEW_TASK);
    let new = names(Kind::TaskIn(Notation::New), NEW_TASK);
    assert_eq!(
        either[0],
        "the count of variables or the 0 of a new task file"
    );
    assert_eq!(new[0], "the first number of a new task file");
    let gaps = [
        "the gap less one to the 2nd of 3 listed pairs",
        "the gap less one to the 3rd of 3 listed pairs",
    ];
    for names in [&either, &new] {
        assert_eq!(names[1..10], old[..9]);
        assert_eq!(names[10..12], gaps);
        assert_eq!(names[12..], old[11..]);
    }
    let weights = [
        "the first number of a new weight file",
        "the count of weights",
        "the 1st of 3 weights",
        "the gap less one to the 2nd of 3 weights",
        "the gap less one to the 3rd of 3 weights",
        "",
    ];
    let kind = Kind::Weights(Notation::New, SMALL);
    assert_eq!(names(kind, NEW_WEIGHTS), weights);
}

#[test]
fn every_number_of_the_other_files_has_a_name() {
    let partial = names(Kind::Partial, PARTIAL);
    let due = [
        "the size of variable 2",
        "the mark of variable 0",
        "the mark of variable 1",
        "the mark of variable 2",
        "the start value of variable 0",
        "the start value of variable 1",
        "the start value of variable 2",
        "the goal value of variable 0",
        "the goal value of variable 2",
        "the count of listed pairs",
        "the only listed pair",
        "the count of operators",
    ];
    assert_eq!(partial[3..15], due);
    let bay = names(Kind::Bay, BAY);
    assert_eq!(
        bay[..3],
        [
            "the count of rows",
            "the count of columns",
            "the start label of slot 0"
        ]
    );
    assert_eq!(
        bay[7..9],
        ["the start label of slot 5", "the goal label of slot 0"]
    );
    let weights = [
        "the count of weights",
        "the 1st of 3 weights",
        "the 2nd of 3 weights",
    ];
    let kind = Kind::Weights(Notation::Old, SMALL);
    assert_eq!(names(kind, WEIGHTS)[..3], weights);
}

#[test]
fn a_place_that_no_number_leads_to_has_no_name() {
    assert!(walk::due(Kind::Task, TASK, 10).is_none());
    assert!(walk::due(Kind::Task, TASK, TASK.len()).is_none());
    assert!(walk::due(Kind::Task, &[2, 0x80, 0, 3], 3).is_none());
    assert!(walk::due(Kind::Task, &[2, 2, 2, 0, 0, 0, 0, 0, 1, 1, 7, 0], 11).is_none());
    let kind = Kind::Weights(Notation::Old, &[2, 2]);
    assert!(walk::due(kind, WEIGHTS, 1).is_none());
}

// The ends of a range are all that is asked of the library; here it is asked of many numbers.
#[test]
fn ranges_are_the_numbers_that_the_library_takes() {
    let ends = [
        4095, 4096, 16_383, 16_384, 16_385, 25_345, 25_346, 32_768, 2_097_150, 2_097_151,
    ];
    let tried: Vec<usize> = (0..=300).chain(ends).collect();
    for (kind, file) in KINDS {
        let places = places(file);
        for place in &places[..places.len() - 1] {
            let front = &file[..*place];
            let due = walk::due(kind, file, *place).unwrap();
            let taken = Taken::behind(front, kind, &due.bounds);
            let taken = taken.unwrap_or_else(|| panic!("{} is not borne out", due.name));
            for number in &tried {
                let mut file = front.to_vec();
                numbers::put(&mut file, *number);
                let part = kind.part(&file).unwrap();
                let refused = part.is_some_and(|part| part.beginning == *place);
                assert_eq!(taken.has(*number), !refused, "{} {number}", due.name);
            }
        }
    }
}

#[test]
fn ranges_that_the_library_does_not_bear_out_are_not_said() {
    let taken = |start, end| {
        let bounds = Bounds::Before(std::ops::Range { start, end });
        Taken::behind(&TASK[..3], Kind::Task, &bounds)
    };
    assert_eq!(taken(0, 2).unwrap().ends, Some((0, 1)));
    for (start, end) in [
        (0, 1),
        (0, 3),
        (1, 2),
        (1, 3),
        (0, 0),
        (1, 1),
        (2, 2),
        (3, 2),
    ] {
        assert_eq!(taken(start, end), None, "{start} {end}");
    }
    assert_eq!(taken(4, 3).unwrap().ends, None);
    // These bytes are at fault before the number that is tried.
    let taken = Taken::behind(&[2, 0], Kind::Task, &Bounds::Limit);
    assert_eq!(taken, None);
}

// A file that ends at a number is refused 1, one that goes on badly 12 or 13, at the same place and
// with the same number due.
#[test]
fn the_number_that_is_due_does_not_depend_on_what_stands_there() {
    for (kind, file) in KINDS {
        let places = places(file);
        for place in &places[..places.len() - 1] {
            let front = &file[..*place];
            let name = walk::due(kind, file, *place).unwrap().name;
            let with = |bytes: &[u8]| words(kind, &[front, bytes].concat());
            let due = |start: String| format!("{start}, where {name} is due, ");
            let told = [
                (
                    with(&[]),
                    format!("refused 1: the file ends at byte {place}"),
                ),
                (
                    with(&[0x80]),
                    format!("refused 1: the file ends behind 80 at byte {place}"),
                ),
                (
                    with(&[0x80, 0x80]),
                    format!("refused 1: the file ends behind 80 80 at byte {place}"),
                ),
                (
                    with(&[0x85, 0, 7]),
                    format!(
                        "refused 12: at byte {place} stands 85 00, which is not the shortest form"
                    ),
                ),
                (
                    with(&[0x85, 0x80, 0, 7]),
                    format!(
                        "refused 12: at byte {place} stands 85 80 00, which is not the shortest form"
                    ),
                ),
                (
                    with(&[0xff, 0x80, 0x80, 7]),
                    format!(
                        "refused 13: at byte {place} stands ff 80 80, which says that more follows"
                    ),
                ),
            ];
            for (words, start) in told {
                assert!(words.starts_with(&due(start)), "{words}");
            }
        }
    }
}

// Whatever byte is mistyped, the file is taken, or refused without a place, or all is told of the place.
#[test]
fn every_mistyped_byte_is_told_with_what_is_due() {
    let mut placed = 0;
    for (kind, file) in KINDS {
        for place in 0..file.len() {
            for byte in 0..=255 {
                let mut file = file.to_vec();
                file[place] = byte;
                match refusal(kind, &file).map(|refusal| told(refusal, kind, &file)) {
                    None | Some(Fault::Refused(5 | 6 | 7 | 10 | 11)) => {}
                    Some(Fault::Placed(at, None)) => {
                        let expected = at.expected.as_ref().unwrap();
                        assert!(expected.taken.is_some(), "{file:?}");
                        placed += 1;
                    }
                    Some(other) => panic!("{file:?} {}", other.words()),
                }
            }
        }
    }
    assert!(placed > 10_000, "{placed}");
}

// Four variables of size 64 have 24,832 features, and a fifth of size s adds 257 * s: so s is 30 at most,
// and then there are 32,542, to which a sixth variable would add 287 for each of its values.
#[test]
fn numbers_outside_their_range_are_told() {
    let due: [(Kind, &[u8], &str); 17] = [
        (
            Kind::Task,
            &[65, 9],
            "refused 2: at byte 0 stands 41, which is 65, where the count of variables or the 0 of \
             a new task file is due, from 0 to 64; bytes counted from 0",
        ),
        (
            Kind::TaskIn(Notation::Old),
            NEW_TASK,
            "refused 2: at byte 0 stands 00, which is 0, where the count of variables is due, from \
             1 to 64; bytes counted from 0",
        ),
        (
            Kind::TaskIn(Notation::New),
            TASK,
            "refused 3: at byte 0 stands 02, which is 2, where the first number of a new task file \
             is due, and only 0 will do; bytes counted from 0",
        ),
        (
            Kind::Task,
            &[0, 65],
            "refused 2: at byte 1 stands 41, which is 65, where the count of variables is due, \
             from 1 to 64; bytes counted from 0",
        ),
        (
            Kind::Task,
            &[0, 2, 2, 2, 0, 0, 0, 1, 2, 5, 2],
            "refused 3: at byte 10 stands 02, which is 2, where the gap less one to the 2nd of 2 \
             listed pairs is due, from 0 to 1; bytes counted from 0",
        ),
        (
            Kind::Task,
            &[0, 2, 2, 2, 0, 0, 0, 1, 2, 7, 0],
            "refused 3: at byte 10 stands 00, which is 0, where the gap less one to the 2nd of 2 \
             listed pairs is due, and no number will do; bytes counted from 0",
        ),
        (
            Kind::Weights(Notation::New, LARGE),
            &[0, 2, 0x80, 0x80, 1, 0x81, 0x46],
            "refused 3: at byte 5 stands 81 46, which is 8961, where the gap less one to the 2nd \
             of 2 weights is due, from 0 to 8960; bytes counted from 0",
        ),
        (
            Kind::Task,
            &[5, 64, 64, 64, 64, 31],
            "refused 2: at byte 5 stands 1f, which is 31, where the size of variable 4 is due, \
             from 1 to 30, as the features in all have a limit too; bytes and variables counted \
             from 0",
        ),
        (
            Kind::Task,
            &[6, 64, 64, 64, 64, 30, 1],
            "refused 2: at byte 6 stands 01, which is 1, where the size of variable 5 is due, and \
             no number will do, as the features in all have a limit too; bytes and variables \
             counted from 0",
        ),
        (
            Kind::Task,
            &[2, 2, 64, 0, 0xc1, 1],
            "refused 3: at byte 4 stands c1 01, which is 193, where the start value of variable 1 \
             is due, from 0 to 63; bytes and variables counted from 0",
        ),
        (
            Kind::Task,
            &[2, 2, 2, 0, 0, 0, 1, 2, 5, 5],
            "refused 4: at byte 9 stands 05, which is 5 and does not increase, where the 2nd of 2 \
             listed pairs is due, from 6 to 7; bytes counted from 0",
        ),
        (
            Kind::Task,
            &[2, 2, 2, 0, 0, 0, 1, 0, 1, 2, 1, 0, 0, 1],
            "refused 4: at byte 13 stands 01, which is 1 and does not increase, where the variable \
             of the 2nd entry of operator 0 is due, and no number will do; bytes, variables and \
             operators counted from 0",
        ),
        (
            Kind::Partial,
            &[5, 63, 63, 63, 63, 30],
            "refused 2: at byte 5 stands 1e, which is 30, where the size of variable 4 is due, \
             from 1 to 29, as the features in all have a limit too; bytes and variables counted \
             from 0",
        ),
        (
            Kind::Bay,
            &[9, 2],
            "refused 2: at byte 1 stands 02, which is 2, where the count of columns is due, and \
             only 1 will do, as the slots in all have a limit too; bytes counted from 0",
        ),
        (
            Kind::Bay,
            &[5, 4],
            "refused 2: at byte 1 stands 04, which is 4, where the count of columns is due, from 1 \
             to 3, as the slots in all have a limit too; bytes counted from 0",
        ),
        (
            Kind::Weights(Notation::Old, LARGE),
            &[2, 0x80, 0x80, 1, 0x82, 0xc6, 1],
            "refused 3: at byte 4 stands 82 c6 01, which is 25346, where the 2nd of 2 weights is \
             due, from 16385 to 25345; bytes counted from 0",
        ),
        (
            Kind::PartialWeights(SMALL_PARTIAL),
            &[1, 15],
            "refused 3: at byte 1 stands 0f, which is 15, where the only weight is due, from 0 to \
             14; bytes counted from 0",
        ),
    ];
    for (kind, file, expected) in due {
        assert_eq!(words(kind, file), expected);
    }
}

#[test]
fn a_refusal_without_a_place_stays_as_it_is() {
    let mut outgrown = vec![1, 1, 0, 0, 0, 0xff, 0xff, 0x7f];
    outgrown.extend([1, 0, 0, 0].repeat(numbers::LARGEST));
    let due: [(Kind, &[u8], u32); 11] = [
        (Kind::Task, &[2, 2, 2, 0, 0, 0, 1, 0, 0, 7], 5),
        (Kind::Task, &[0, 2, 2, 2, 0, 0, 0, 1, 0, 0, 7], 5),
        (
            Kind::TaskIn(Notation::Old),
            &[2, 2, 2, 1, 1, 0, 0, 1, 7, 0],
            6,
        ),
        (
            Kind::TaskIn(Notation::New),
            &[0, 2, 2, 2, 1, 1, 0, 0, 1, 7, 0],
            6,
        ),
        (Kind::Weights(Notation::New, SMALL), &[0, 0, 7], 5),
        (Kind::Task, &[2, 2, 2, 1, 1, 0, 0, 1, 7, 0], 6),
        (Kind::Task, &[2, 2, 2, 0, 0, 1, 0, 1, 7, 1, 1, 0, 0, 1], 7),
        (Kind::Bay, &[1, 2, 0, 0, 0, 1], 10),
        (Kind::Bay, &[1, 3, 0, 1, 1, 0, 1, 2], 11),
        (Kind::Weights(Notation::Old, SMALL), &[0, 7], 5),
        (Kind::Partial, &outgrown, 2),
    ];
    for (kind, file, number) in due {
        let told = told(refusal(kind, file).unwrap(), kind, file);
        assert!(
            matches!(told, Fault::Refused(told) if told == number),
            "{number}"
        );
    }
}

#[test]
fn a_refusal_that_the_bytes_do_not_bear_out_is_not_passed_on() {
    let ended: &[u8] = &[2, 2];
    let padded: &[u8] = &[2, 0x80, 0];
    let endless: &[u8] = &[2, 0x80, 0x80, 0x80];
    let beyond: &[u8] = &[2, 65];
    let lies = [
        (ended, [2, 3, 12, 13, 5]),
        (padded, [1, 2, 3, 13, 5]),
        (endless, [1, 2, 4, 12, 7]),
        (beyond, [1, 12, 13, 5, 8]),
        (SMALL, [1, 3, 4, 12, 13]),
    ];
    for (file, numbers) in lies {
        for number in numbers {
            let told = told(Fault::Refused(number), Kind::Task, file);
            assert_eq!(told.heading(), "ERROR", "{number} {}", told.words());
        }
    }
    // The task is at fault here, and not the weights.
    let kind = Kind::Weights(Notation::Old, beyond);
    let told = told(Fault::Refused(3), kind, WEIGHTS);
    assert_eq!(told.heading(), "ERROR", "{}", told.words());
}

// A file of the kind that is due is not refused for its first number.
#[test]
fn a_file_of_the_kind_that_is_due_has_no_fault() {
    for (due, file) in [
        (Notation::Old, SMALL),
        (Notation::New, &[&[0], SMALL].concat()),
    ] {
        let told = told(Fault::Refused(3), Kind::TaskIn(due), file);
        assert_eq!(told.heading(), "ERROR", "{}", told.words());
    }
}

#[test]
fn a_program_is_told_the_same() {
    let json = |kind: Kind, file: &[u8]| {
        let told = told(refusal(kind, file).unwrap(), kind, file);
        let json = told.json("x").to_string();
        json.split_once("\"place\"").unwrap().1.to_string()
    };
    assert_eq!(
        json(Kind::Task, &[2, 2, 64, 0, 0xc1, 1]),
        ": 4, \"bytes\": \"c1 01\", \"expected\": \"the start value of variable 1, from 0 to 63\", \
         \"least\": 0, \"most\": 63}"
    );
    assert_eq!(
        json(Kind::Task, &[6, 64, 64, 64, 64, 30]),
        ": 6, \"bytes\": \"\", \"expected\": \"the size of variable 5, and no number will do, as \
         the features in all have a limit too\"}"
    );
}

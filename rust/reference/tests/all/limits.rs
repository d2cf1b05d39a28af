//! Files that were accepted before bays of sixteen mean what they meant: held on random and damaged
//! files of every kind, read by the limits of before and by today's.

use reference::bay::bay_from;
use reference::features::count_features;
use reference::kinds::Kind;
use reference::limits::{Limits, BEFORE, LARGEST, NOW};
use reference::numbers::{encode, Reader};
use reference::operators::{Entry, Operator};
use reference::partial::{built_from, LeftOut, Partial};
use reference::places::{read, Fault, File};
use reference::refusal::Refusal;
use reference::sample::bays::{bay, mislabel, shapes};
use reference::sample::damage::{bad_forms, damaged_file};
use reference::sample::partials::{self, loose_partial, FORMER_PARTIAL_EDGES, PARTIAL_PAST_EDGES};
use reference::sample::tasks::{
    accepted_task, loose_task, loose_weights, sizes, FORMER_EDGES, LARGE, MEDIUM, PAST_EDGES,
    SMALL, TINY, WIDE,
};
use reference::sample::Generator;
use reference::task::task_from;
use reference::weights::{weight_numbers, weights_from};

/// How often files were accepted by both limits, by today's alone, and by neither.
#[derive(Default, Debug)]
struct Met {
    both: usize,
    today: usize,
    neither: usize,
}

impl Met {
    /// Holds one reading against the other. What isn't refused for a limit, or for a number that is
    /// too long, is read alike: accepted as the same, or refused for the same at the same place.
    fn hold<Read: PartialEq + std::fmt::Debug>(
        &mut self,
        bytes: &[u8],
        reader: impl Fn(Reader) -> Result<Read, Fault>,
    ) {
        let before = reader(Reader::within(BEFORE, bytes));
        let now = reader(Reader::within(NOW, bytes));
        match (before.is_ok(), now.is_ok()) {
            (true, _) => self.both += 1,
            (false, true) => self.today += 1,
            (false, false) => self.neither += 1,
        }
        let refusal = before.as_ref().err().map(|fault| fault.refusal);
        if !matches!(refusal, Some(Refusal::Limit | Refusal::MoreFollows)) {
            assert_eq!(before, now, "{bytes:x?}");
        }
    }

    fn assert_all(&self, least: usize) {
        let counts = [self.both, self.today, self.neither];
        assert!(counts.iter().all(|count| *count >= least), "{self:?}");
    }
}

/// A file as it is, or damaged.
fn perhaps_damaged(generator: &mut Generator, numbers: &[usize]) -> Vec<u8> {
    if generator.once_in(3) {
        encode(numbers)
    } else {
        damaged_file(generator, numbers)
    }
}

/// Sizes of all scales up to the limit of before, at it, and a little past it.
fn some_sizes(generator: &mut Generator) -> Vec<usize> {
    if generator.once_in(8) {
        return generator.choose(&FORMER_EDGES).to_vec();
    }
    let scale = generator.choose(&[TINY, SMALL, SMALL, MEDIUM, WIDE, LARGE]);
    sizes(generator, scale)
}

#[test]
fn tasks() {
    let mut generator = Generator::new(0x6B01);
    let mut met = Met::default();
    for _ in 0..6_000 {
        let sizes = some_sizes(&mut generator);
        let task = if generator.once_in(2) {
            accepted_task(&mut generator, &sizes, 4)
        } else {
            loose_task(&mut generator, &sizes, 4)
        };
        let file = perhaps_damaged(&mut generator, &task.numbers());
        met.hold(&file, |reader| read(File::Task, reader, task_from));
    }
    met.assert_all(40);
}

/// Weights beside a task that both limits take; from 128 features on their numbers are longer.
#[test]
fn weights() {
    let mut generator = Generator::new(0x6B02);
    let mut met = Met::default();
    for _ in 0..6_000 {
        let count = generator.choose(&[8, 80, 300, 4_096]);
        let numbers = weight_numbers(&loose_weights(&mut generator, count));
        let file = perhaps_damaged(&mut generator, &numbers);
        met.hold(&file, |reader| {
            read(File::Weights, reader, |reader| {
                weights_from(Kind::Old, reader, count)
            })
        });
    }
    // A number of three bytes is out of range here, so nothing is accepted by today's limits alone.
    assert_eq!(met.today, 0);
    assert!(met.both > 1_000 && met.neither > 1_000, "{met:?}");
}

#[test]
fn partial_files() {
    let mut generator = Generator::new(0x6B03);
    let mut met = Met::default();
    for _ in 0..4_000 {
        let sizes = if generator.once_in(8) {
            generator.choose(&FORMER_PARTIAL_EDGES).to_vec()
        } else {
            let scale = generator.choose(&[TINY, SMALL, SMALL, MEDIUM, LARGE]);
            partials::sizes(&mut generator, scale)
        };
        let partial = loose_partial(&mut generator, &sizes, 4);
        let file = perhaps_damaged(&mut generator, &partial.numbers());
        for left_out in [LeftOut::ByLetter, LeftOut::Lean] {
            met.hold(&file, |reader| {
                read(File::Task, reader, |reader| built_from(reader, left_out))
            });
        }
    }
    met.assert_all(40);
}

#[test]
fn bays() {
    let mut generator = Generator::new(0x6B04);
    let mut met = Met::default();
    for _ in 0..6_000 {
        let shape = generator.choose(&shapes());
        let mut bay = bay(&mut generator, shape);
        if generator.once_in(4) {
            mislabel(&mut generator, &mut bay);
        }
        let file = perhaps_damaged(&mut generator, &bay.numbers());
        met.hold(&file, |reader| read(File::Task, reader, bay_from));
    }
    met.assert_all(40);
}

/// Every form of a number that the limits of before took is the same number today.
#[test]
fn numbers() {
    let number = |limits, bytes: &[u8]| Reader::within(limits, bytes).number();
    for code in 0..1 << 16 {
        let [first, second, ..] = u32::to_le_bytes(code);
        for bytes in [&[first, second][..], &[first, second, 1]] {
            let before = number(BEFORE, bytes);
            if before != Err(Refusal::MoreFollows) {
                assert_eq!(before, number(NOW, bytes));
            }
        }
    }
    assert_eq!([BEFORE.largest(), LARGEST], [16_383, 2_097_151]);
    for value in [0, 127, 128, 16_383] {
        let bytes = encode(&[value]);
        assert_eq!(number(BEFORE, &bytes), Ok(value as u64));
    }
    assert_eq!(
        number(BEFORE, &encode(&[16_384])),
        Err(Refusal::MoreFollows)
    );
    for form in bad_forms(5) {
        assert!(number(BEFORE, &form).is_err());
        assert!(number(NOW, &form).is_err());
    }
}

/// What each limit of before refused, and today's take.
#[test]
fn what_has_moved() {
    let refusal = |limits: Limits, bytes: &[u8]| {
        let task = task_from(&mut Reader::within(limits, bytes));
        task.map_or_else(|refusal| refusal.number(), |_| 0)
    };
    let wide = |sizes: &[usize]| {
        let rest = vec![0; 2 * sizes.len() + 2];
        encode(&[&[sizes.len()], sizes, &rest].concat())
    };
    for sizes in FORMER_EDGES {
        let past = count_features(sizes) > 4_096;
        assert_eq!(refusal(BEFORE, &wide(sizes)), if past { 2 } else { 0 });
        assert_eq!(refusal(NOW, &wide(sizes)), 0);
    }
    for sizes in PAST_EDGES {
        assert_eq!(refusal(BEFORE, &wide(sizes)), 2);
        assert_eq!(refusal(NOW, &wide(sizes)), 2);
    }
    let four_by_four = [&[4, 4][..], &[0; 32]].concat();
    let bay = |limits| bay_from(&mut Reader::within(limits, &four_by_four));
    assert_eq!(bay(BEFORE), Err(Refusal::Limit));
    assert_eq!(bay(NOW), Err(Refusal::Gap));
    for sizes in PARTIAL_PAST_EDGES {
        let rest = vec![0; 2 * sizes.len() + 2];
        let file = encode(&[&[sizes.len()], sizes, &rest].concat());
        let built = built_from(&mut Reader::new(&file), LeftOut::ByLetter);
        assert_eq!(built, Err(Refusal::Limit));
    }
}

/// As many kept operators as the limits of before counted are accepted by both, one more by today's.
#[test]
fn kept_operators() {
    let stay = Operator {
        entries: [Entry {
            variable: 0,
            before: 0,
            after: 0,
        }]
        .into(),
    };
    // One forgetting operator is kept beside them.
    let file = |operators| {
        let partial = Partial {
            sizes: vec![1],
            start: vec![0],
            goal: vec![None],
            pairs: Vec::new(),
            operators: vec![stay.clone(); operators],
        };
        partial.file()
    };
    let built = |limits, bytes: &[u8]| {
        let built = built_from(&mut Reader::within(limits, bytes), LeftOut::ByLetter);
        built.map(|task| task.operators.len())
    };
    assert_eq!(built(BEFORE, &file(16_382)), Ok(16_383));
    assert_eq!(built(NOW, &file(16_382)), Ok(16_383));
    assert_eq!(built(BEFORE, &file(16_383)), Err(Refusal::Limit));
    assert_eq!(built(NOW, &file(16_383)), Ok(16_384));
    assert_eq!(built(BEFORE, &file(16_384)), Err(Refusal::MoreFollows));
    assert_eq!(built(NOW, &file(16_384)), Ok(16_385));
}

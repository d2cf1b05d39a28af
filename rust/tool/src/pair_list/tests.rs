//! Pair lists that are mended, held against the rules' own judgement of every shorter list.

use super::*;

/// Document 01's operator "lift".
const LIFT: &[u8] = &[1, 0, 0, 1];

/// A task of two variables of size 2: pairs 4 to 7 are the values 00, 01, 10 and 11.
fn task(start: [u8; 2], pairs: &[u8], operators: &[&[u8]]) -> Vec<u8> {
    let mut bytes = vec![2, 2, 2, start[0], start[1], 0, 1, pairs.len() as u8];
    bytes.extend(pairs);
    bytes.push(operators.len() as u8);
    bytes.extend(operators.concat());
    bytes
}

/// The numbers of the dropped pairs, each with its step and, if an operator broke it, that one.
fn dropped(task: &[u8]) -> Vec<(usize, usize, Option<usize>)> {
    let number = |cause: &Cause| match cause {
        Cause::Start => None,
        Cause::Operator(operator) => Some(operator.number),
    };
    let mended = mend(task).unwrap();
    let told = mended.dropped.iter().map(|dropped| {
        let (step, cause) = dropped.why.as_ref().unwrap();
        (dropped.pair.number, *step, number(cause))
    });
    told.collect()
}

#[test]
fn a_pair_goes_because_of_the_start_or_of_an_operator() {
    assert_eq!(dropped(&task([0, 0], &[7], &[LIFT])), [(7, 1, Some(0))]);
    assert_eq!(dropped(&task([1, 1], &[7], &[])), [(7, 1, None)]);
    let mended = mend(&task([1, 1], &[6, 7], &[])).unwrap();
    assert_eq!(mended.file, task([1, 1], &[6], &[]));
    assert_eq!((mended.listed, mended.kept()), (2, 1));
}

#[test]
fn a_good_list_stays() {
    // Lift is idle where 00 and 01 are exclusive, as in case L.
    for good in [task([1, 0], &[4, 5], &[LIFT]), task([0, 0], &[], &[LIFT])] {
        let mended = mend(&good).unwrap();
        assert_eq!((mended.file, mended.dropped.len()), (good, 0));
    }
}

// The first operator takes variable 0 from 1 to 0, and spares 01 as long as 11 is exclusive; the
// second one leads to 11.
#[test]
fn a_pair_may_be_broken_only_once_another_is_gone() {
    let falls: &[u8] = &[1, 0, 1, 0];
    let made: &[u8] = &[2, 0, 1, 1, 1, 0, 1];
    let chain = task([0, 0], &[5, 7], &[falls, made]);
    assert_eq!(dropped(&chain), [(5, 2, Some(0)), (7, 1, Some(1))]);
    // The start holds 00, and without that pair the operator is idle no more.
    let both: &[u8] = &[2, 0, 0, 1, 1, 0, 1];
    let idle = task([0, 0], &[4, 7], &[both]);
    assert_eq!(dropped(&idle), [(4, 1, None), (7, 2, Some(0))]);
}

/// Every operator of two variables of size 2.
fn operators() -> Vec<Vec<u8>> {
    let entries = |variable| {
        let values = [(0, 0), (0, 1), (1, 0), (1, 1)];
        values.map(|(before, after)| [variable, before, after])
    };
    let one = [entries(0), entries(1)].concat();
    let one = one.iter().map(|entry| [&[1][..], entry].concat());
    let two = entries(0).into_iter().flat_map(|low| {
        let high = entries(1).into_iter();
        high.map(move |high| [&[2][..], &low, &high].concat())
    });
    one.chain(two).collect()
}

/// The pairs from 4 that stand for the bits of a number.
fn listed(bits: u8) -> Vec<u8> {
    (4..8).filter(|pair| bits >> (pair - 4) & 1 == 1).collect()
}

// An opening accepts exactly the good lists, so all good parts of a list together are what stays.
#[test]
fn what_stays_is_every_good_part_of_the_list() {
    let operators = operators();
    assert_eq!(operators.len(), 24);
    for (place, one) in operators.iter().enumerate() {
        for two in &operators[place..] {
            for start in [[0, 0], [0, 1], [1, 0], [1, 1]] {
                let of = |bits: u8| task(start, &listed(bits), &[one, two]);
                let good = |bits: &u8| library::open(&of(*bits)).is_ok();
                let good: Vec<u8> = (0..16).filter(good).collect();
                for bits in 0..16 {
                    let parts = good.iter().filter(|part| **part & bits == **part);
                    let kept = parts.fold(0, |all, part| all | part);
                    let mended = mend(&of(bits)).unwrap();
                    assert_eq!(mended.file, of(kept), "{:?}", of(bits));
                    let gone = mended.dropped.iter().map(|one| one.pair.number as u8);
                    assert_eq!(gone.collect::<Vec<u8>>(), listed(bits & !kept));
                }
            }
        }
    }
}

#[test]
fn only_so_many_reasons_are_sought() {
    // One operator for each of the pairs, which are all of two variables of nine values but 00.
    let pairs: Vec<usize> = (19..99).collect();
    let mut bytes = vec![2, 9, 9, 0, 0, 0, 1];
    crate::numbers::put_list(&mut bytes, &pairs);
    bytes.push(80);
    for pair in 1..81 {
        bytes.extend([2, 0, 0, pair / 9, 1, 0, pair % 9]);
    }
    let mended = mend(&bytes).unwrap();
    assert_eq!((mended.listed, mended.kept()), (80, 0));
    let steps = mended.dropped.iter().filter_map(|one| one.why.as_ref());
    let steps: Vec<usize> = steps.map(|(step, _)| *step).collect();
    assert_eq!(steps, (1..65).collect::<Vec<usize>>());
}

#[test]
fn the_pair_behind_a_refusal_is_told() {
    let words = |task: &[u8]| told(library::open(task).err().unwrap(), task).words();
    assert_eq!(
        words(&task([1, 1], &[7], &[])),
        "refused 6: the start holds a listed pair (pair 7, variable 0 = 1 and variable 1 = 1: the \
         start holds it; all counted from 0; florumeja mend TASK -o FILE writes the task without \
         the pairs that cannot stay)"
    );
    assert_eq!(
        words(&task([0, 0], &[7], &[LIFT])),
        "refused 7: the pairs are not closed under an operator (pair 7, variable 0 = 1 and \
         variable 1 = 1: operator 0, which takes variable 0 from 0 to 1, breaks it; all counted \
         from 0; florumeja mend TASK -o FILE writes the task without the pairs that cannot stay)"
    );
    assert_eq!(words(&[65]), crate::fault::refusal_words(2));
}

// The same pairs as the first of them and a gap.
#[test]
fn a_new_file_is_mended_in_its_kind() {
    let new = |pairs: &[u8], operators: &[u8]| {
        let front = [0, 2, 2, 2, 0, 0, 0, 1, pairs.len() as u8];
        [&front, pairs, operators].concat()
    };
    // From 00 to 11, which is idle as long as 00 is exclusive; 01 stays.
    let both = [1, 2, 0, 0, 1, 1, 0, 1];
    let mended = mend(&new(&[4, 0, 1], &both)).unwrap();
    assert_eq!(mended.file, new(&[5], &both));
    let gone = mended.dropped.iter().map(|one| one.pair.number);
    assert_eq!(gone.collect::<Vec<_>>(), [4, 7]);
    let words = told(Fault::Refused(6), &new(&[4, 0, 1], &both)).words();
    assert!(words.contains("pair 4, variable 0 = 0"), "{words}");
}

#[test]
fn a_refusal_that_nothing_bears_out_is_not_passed_on() {
    let held = task([1, 1], &[7], &[]);
    for (refusal, task) in [(7, held), (6, task([0, 0], &[7], &[]))] {
        let told = told(Fault::Refused(refusal), &task);
        assert_eq!(told.heading(), "ERROR", "{}", told.words());
    }
}

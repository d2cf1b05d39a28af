//! Faults of a file that are refused under another number than is due, or not at all.

use super::faults::{planted_fault, Fault, Fault::*};
use reference::calls::{done, refused};
use reference::places::{Fault as Refused, File};
use reference::refusal::Refusal::{
    self, InputEnds, Limit, MoreFollows, NotClosed, NotShortest, Order, Range, StartHoldsPair,
};

/// An answer under another number; where the given fault is planted, as document 01 had it.
pub fn misnumbered(answer: u64, as_before: Fault) -> u64 {
    let is = |refusal| answer == refused(refusal);
    match planted_fault() {
        LongAsEndless if is(NotShortest) => refused(MoreFollows),
        EndlessAsLong if is(MoreFollows) => refused(NotShortest),
        EndsAsLong if is(InputEnds) => refused(NotShortest),
        EndsAsEndless if is(InputEnds) => refused(MoreFollows),
        OrderUnjudged if is(Order) => done(0),
        RangeUnjudged if is(Range) => done(0),
        LimitUnjudged if is(Limit) => done(0),
        HeldAsUnclosed if is(StartHoldsPair) => refused(NotClosed),
        UnclosedTaken if is(NotClosed) => done(0),
        fault if fault == as_before && (is(NotShortest) || is(MoreFollows)) => refused(InputEnds),
        _ => answer,
    }
}

/// The number of a refusal that depends on what follows, where it shouldn't.
pub fn misread([task, weights]: [&[u8]; 2], refused: &Refused) -> Refusal {
    let Some(part) = &refused.part else {
        return refused.refusal;
    };
    let bytes = match part.file {
        File::Task => task,
        File::Weights => weights,
    };
    let next = bytes.get(part.bytes.end);
    match (planted_fault(), refused.refusal) {
        (CutAsEndless, InputEnds) if !part.bytes.is_empty() => MoreFollows,
        (SecondCutAsEndless, InputEnds) if part.bytes.len() == 2 => MoreFollows,
        (NeedlessThirdAsEndless, NotShortest) if part.bytes.len() == 3 => MoreFollows,
        (EndlessWaitsForMore, MoreFollows) if next.is_none() => InputEnds,
        (EndlessZeroAsLong, MoreFollows) if next == Some(&0) => NotShortest,
        (_, refusal) => refusal,
    }
}

//! The numbers that the library takes at a place: it is asked, and what it does not bear out is not said.

use super::walk::Bounds;
use super::Kind;
use crate::notation::Notation;
use crate::numbers::{self, LARGEST};
use std::ops::Range;

/// Where a limit leaves any number at all, it leaves one of those up to this one.
const LARGEST_LEAST: usize = 2;
/// A file that begins so has one variable, or one row, so that no total is beyond its limit.
const ALONE: &[u8] = &[1];
/// The same where only a new file will do.
const NEW_ALONE: &[u8] = &[0, 1];

/// The numbers that are taken at a place.
#[derive(Clone, Copy, PartialEq, Eq, Debug)]
pub struct Taken {
    /// The least and the most; none where no number is taken.
    pub ends: Option<(usize, usize)>,
    /// The total whose limit leaves fewer numbers than there would be otherwise.
    pub total: Option<&'static str>,
}

impl Taken {
    /// The numbers that the library takes behind these bytes, where it bears out the bounds.
    pub fn behind(front: &[u8], kind: Kind, bounds: &Bounds) -> Option<Taken> {
        let trial = Trial { kind, front };
        match bounds {
            Bounds::Before(range) => trial.within(range),
            Bounds::Limit => trial.up_to_limit(),
            Bounds::Total(what) => {
                let taken = trial.up_to_limit()?;
                let front = match kind {
                    Kind::TaskIn(Notation::New) => NEW_ALONE,
                    _ => ALONE,
                };
                let alone = Trial { kind, front }.up_to_limit()?;
                let total = (taken.most() < alone.most()).then_some(*what);
                Some(Taken { total, ..taken })
            }
        }
    }

    fn new(ends: Option<(usize, usize)>) -> Taken {
        Taken { ends, total: None }
    }

    fn most(&self) -> Option<usize> {
        self.ends.map(|(_, most)| most)
    }

    pub fn has(&self, number: usize) -> bool {
        let has = |(least, most): (usize, usize)| (least..=most).contains(&number);
        self.ends.is_some_and(has)
    }

    pub fn words(&self) -> String {
        let words = match self.ends {
            None => "and no number will do".to_string(),
            Some((least, most)) if least == most => format!("and only {least} will do"),
            Some((least, most)) => format!("from {least} to {most}"),
        };
        match self.total {
            Some(total) => format!("{words}, as the {total} in all have a limit too"),
            None => words,
        }
    }
}

/// A file up to a place, at which numbers are tried.
struct Trial<'a> {
    kind: Kind<'a>,
    front: &'a [u8],
}

impl Trial<'_> {
    // Whether a number is at fault does not depend on what follows it, so nothing follows it here.
    fn takes(&self, number: usize) -> Option<bool> {
        let place = self.front.len();
        let mut file = self.front.to_vec();
        numbers::put(&mut file, number);
        let length = file.len() - place;
        match self.kind.part(&file).ok()? {
            None => Some(true),
            Some(part) if part.beginning > place => Some(true),
            Some(part) if (part.beginning, part.length) == (place, length) => Some(false),
            Some(_) => None,
        }
    }

    fn takes_none_of(&self, numbers: &[Option<usize>]) -> Option<bool> {
        let numbers = numbers.iter().flatten();
        for number in numbers.filter(|number| **number <= LARGEST) {
            if self.takes(*number)? {
                return Some(false);
            }
        }
        Some(true)
    }

    // Both ends are taken, and what is next to them is not.
    fn within(&self, range: &Range<usize>) -> Option<Taken> {
        let (below, least) = (range.start.checked_sub(1), range.start);
        let (most, above) = (range.end.checked_sub(1), range.end);
        if range.is_empty() {
            let none = self.takes_none_of(&[below, Some(least), most, Some(above)])?;
            return none.then_some(Taken::new(None));
        }
        let most = most?;
        let ends = self.takes(least)? && (most == least || self.takes(most)?);
        let fits = ends && self.takes_none_of(&[below, Some(above)])?;
        fits.then_some(Taken::new(Some((least, most))))
    }

    // Finds the most by halving.
    fn up_to_limit(&self) -> Option<Taken> {
        let mut least = 0;
        while !self.takes(least)? {
            if least == LARGEST_LEAST {
                return Some(Taken::new(None));
            }
            least += 1;
        }
        let (mut most, mut beyond) = (least, LARGEST + 1);
        while beyond - most > 1 {
            let middle = (most + beyond) / 2;
            match self.takes(middle)? {
                true => most = middle,
                false => beyond = middle,
            }
        }
        Some(Taken::new(Some((least, most))))
    }
}

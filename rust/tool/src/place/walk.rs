//! Walks over the numbers of a file up to a place, to name the one that is due there.

use super::Kind;
use crate::features;
use crate::notation::Notation;
use crate::numbers::{self, Form, LARGEST};
use crate::sizes;
use crate::words::ordinal;
use std::ops::Range;

const BYTES: &str = "bytes";
const VARIABLES: &str = "bytes and variables";
const OPERATORS: &str = "bytes and operators";
const BOTH: &str = "bytes, variables and operators";
const SLOTS: &str = "bytes and slots";

/// The number that is due at a place.
#[derive(Debug)]
pub struct Due {
    pub name: String,
    /// What is counted from 0 in the name and in the place.
    pub counted: &'static str,
    pub bounds: Bounds,
}

/// What bounds a number.
#[derive(Clone, Debug)]
pub enum Bounds {
    /// What stands before it in the file.
    Before(Range<usize>),
    /// A limit, which the library knows.
    Limit,
    /// The same, and a limit on what it makes together with the numbers before it.
    Total(&'static str),
}

impl Due {
    fn new(name: String, counted: &'static str, bounds: Bounds) -> Due {
        Due {
            name,
            counted,
            bounds,
        }
    }

    fn count_of(what: &str, bounds: Bounds) -> Due {
        Due::new(format!("the count of {what}"), BYTES, bounds)
    }
}

/// What is due at a place of a file; none where the numbers before it do not lead there.
pub fn due(kind: Kind, file: &[u8], place: usize) -> Option<Due> {
    let mut walk = Walk { file, place, at: 0 };
    let step = match kind {
        Kind::Task => walk.task(None),
        Kind::TaskIn(notation) => walk.task(Some(notation)),
        Kind::Partial => walk.partial(),
        Kind::Bay => walk.bay(),
        Kind::Weights(notation, task) => walk.weights(notation, &sizes::of_task(task)?),
        Kind::PartialWeights(partial) => walk.weights(Notation::Old, &sizes::of_built(partial)?),
    };
    match step {
        Err(Stop::Arrived(due)) => Some(due),
        _ => None,
    }
}

struct Walk<'a> {
    file: &'a [u8],
    place: usize,
    at: usize,
}

/// Why a walk goes no further.
enum Stop {
    Arrived(Due),
    Lost,
}

type Step<Read> = Result<Read, Stop>;

impl Walk<'_> {
    // Names are made at the place alone, as a long file has many numbers before it.
    fn number(&mut self, due: impl FnOnce() -> Due) -> Step<usize> {
        if self.at == self.place {
            return Err(Stop::Arrived(due()));
        }
        match numbers::read(&self.file[self.at..]) {
            (Form::Number(number), length) => {
                self.at += length;
                Ok(number)
            }
            _ => Err(Stop::Lost),
        }
    }

    fn task(&mut self, notation_due: Option<Notation>) -> Step<()> {
        let notation = self.beginning(notation_due)?;
        let sizes = self.sizes()?;
        self.values("start", sizes.iter().enumerate())?;
        self.values("goal", sizes.iter().enumerate())?;
        self.pairs_and_operators(notation, &sizes)
    }

    // Where either kind will do, what is due first is the count of an old task or the 0 of a new one.
    fn beginning(&mut self, notation_due: Option<Notation>) -> Step<Notation> {
        let found = Notation::of_task(self.file).unwrap_or(Notation::Old);
        let notation = notation_due.unwrap_or(found);
        match notation_due {
            None if self.place == 0 => {
                let either = "variables or the 0 of a new task file";
                self.number(|| Due::count_of(either, Bounds::Limit))?;
            }
            _ if notation == Notation::New => self.zero("task")?,
            _ => {}
        }
        Ok(notation)
    }

    fn zero(&mut self, noun: &str) -> Step<()> {
        let name = || format!("the first number of a new {noun} file");
        self.number(|| Due::new(name(), BYTES, Bounds::Before(0..1)))?;
        Ok(())
    }

    fn partial(&mut self) -> Step<()> {
        let sizes = self.sizes()?;
        let marks = self.marks(sizes.len())?;
        self.values("start", sizes.iter().enumerate())?;
        let named = sizes.iter().enumerate().zip(&marks);
        let named = named.filter_map(|(one, mark)| (*mark != 0).then_some(one));
        self.values("goal", named)?;
        self.pairs_and_operators(Notation::Old, &sizes)
    }

    fn bay(&mut self) -> Step<()> {
        let rows = self.number(|| Due::count_of("rows", Bounds::Limit))?;
        let columns = self.number(|| Due::count_of("columns", Bounds::Total("slots")))?;
        let slots = rows * columns;
        for list in ["start", "goal"] {
            for slot in 0..slots {
                let name = || format!("the {list} label of slot {slot}");
                self.number(|| Due::new(name(), SLOTS, Bounds::Before(0..slots)))?;
            }
        }
        Ok(())
    }

    fn weights(&mut self, notation: Notation, sizes: &[usize]) -> Step<()> {
        if notation == Notation::New {
            self.zero("weight")?;
        }
        self.features(notation, "weight", 0..features::count(sizes))
    }

    fn sizes(&mut self) -> Step<Vec<usize>> {
        let count = self.number(|| Due::count_of("variables", Bounds::Limit))?;
        let size = |variable| {
            let bounds = match variable + 1 == count {
                true => Bounds::Total("features"),
                false => Bounds::Limit,
            };
            Due::new(
                format!("the size of variable {variable}"),
                VARIABLES,
                bounds,
            )
        };
        (0..count)
            .map(|variable| self.number(|| size(variable)))
            .collect()
    }

    fn marks(&mut self, count: usize) -> Step<Vec<usize>> {
        let mark = |variable| {
            let name = format!("the mark of variable {variable}");
            Due::new(name, VARIABLES, Bounds::Before(0..2))
        };
        (0..count)
            .map(|variable| self.number(|| mark(variable)))
            .collect()
    }

    fn values<'b>(
        &mut self,
        state: &str,
        sizes: impl Iterator<Item = (usize, &'b usize)>,
    ) -> Step<()> {
        for (variable, size) in sizes {
            let name = || format!("the {state} value of variable {variable}");
            self.number(|| Due::new(name(), VARIABLES, Bounds::Before(0..*size)))?;
        }
        Ok(())
    }

    fn pairs_and_operators(&mut self, notation: Notation, sizes: &[usize]) -> Step<()> {
        let pairs = features::single_count(sizes)..features::count(sizes);
        self.features(notation, "listed pair", pairs)?;
        let count = self.count_of_list("operator")?;
        for operator in 0..count {
            self.operator(operator, sizes)?;
        }
        Ok(())
    }

    fn count_of_list(&mut self, noun: &str) -> Step<usize> {
        let bounds = Bounds::Before(0..LARGEST + 1);
        self.number(|| Due::count_of(&format!("{noun}s"), bounds))
    }

    fn features(&mut self, notation: Notation, noun: &str, range: Range<usize>) -> Step<()> {
        let count = self.count_of_list(noun)?;
        let mut least = range.start;
        for place in 1..=count {
            let feature = || match count {
                1 => format!("the only {noun}"),
                _ => format!("the {} of {count} {noun}s", ordinal(place)),
            };
            least = match notation {
                Notation::New if place > 1 => {
                    let name = || format!("the gap less one to {}", feature());
                    let bounds = Bounds::Before(0..range.end.saturating_sub(least));
                    least + self.number(|| Due::new(name(), BYTES, bounds))? + 1
                }
                _ => {
                    let bounds = Bounds::Before(least..range.end);
                    self.number(|| Due::new(feature(), BYTES, bounds))? + 1
                }
            };
        }
        Ok(())
    }

    fn operator(&mut self, operator: usize, sizes: &[usize]) -> Step<()> {
        let bounds = Bounds::Before(1..sizes.len() + 1);
        let name = || format!("the count of entries of operator {operator}");
        let count = self.number(|| Due::new(name(), OPERATORS, bounds))?;
        let mut least = 0;
        for place in 1..=count {
            let bounds = Bounds::Before(least..sizes.len());
            let entry = || format!("the {} entry of operator {operator}", ordinal(place));
            let name = || format!("the variable of {}", entry());
            let variable = self.number(|| Due::new(name(), BOTH, bounds))?;
            let size = *sizes.get(variable).ok_or(Stop::Lost)?;
            for time in ["before", "after"] {
                let name =
                    || format!("the value of variable {variable} {time} operator {operator}");
                self.number(|| Due::new(name(), BOTH, Bounds::Before(0..size)))?;
            }
            least = variable + 1;
        }
        Ok(())
    }
}

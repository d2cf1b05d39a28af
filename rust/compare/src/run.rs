//! Runs groups with fixed seeds.

use crate::both::Both;
use crate::groups::{Group, GROUPS};
use crate::tally::Tally;
use reference::sample::Generator;
use std::time::Instant;

/// All seeds come from this one.
pub const FIRST_SEED: u64 = 0xF10A_0E1A_2024_0001;

/// How much is run, and what is shown on the way.
#[derive(Clone, Copy)]
pub struct Plan {
    /// Whether groups are run of which one case takes seconds.
    pub dear: bool,
    /// Of the groups that have at least so many cases ...
    pub long: usize,
    /// ... one of so many cases is run.
    pub share: usize,
    /// Each seed is shown before its case, to find one that ends the program.
    pub trace: bool,
}

impl Plan {
    /// How many cases of a group are run.
    fn cases(self, group: &Group) -> usize {
        if group.is_dear() && !self.dear {
            0
        } else if group.cases < self.long {
            group.cases
        } else {
            group.cases.div_ceil(self.share)
        }
    }
}

/// The seed of one case of the group in a place.
pub fn case_seed(place: usize, case: usize) -> u64 {
    let place = ((place as u64) << 32) + case as u64;
    Generator::new(FIRST_SEED ^ place.wrapping_mul(0xD6E8_FEB8_6659_FD93)).word()
}

pub fn run_case(tally: &mut Tally, group: &Group, seed: u64) {
    let source = format!("group {}, seed {seed:#018x}", group.name);
    let mut both = Both { tally, source };
    (group.run)(&mut both, &mut Generator::new(seed));
}

fn run_group(tally: &mut Tally, place: usize, plan: Plan) {
    let group = &GROUPS[place];
    let (begun, before) = (Instant::now(), tally.compared());
    for case in 0..plan.cases(group) {
        let seed = case_seed(place, case);
        if plan.trace {
            eprintln!("{} {seed:#018x}", group.name);
        }
        run_case(tally, group, seed);
    }
    // Times go apart from the report, which is the same in every run.
    eprintln!(
        "{}: {} comparisons, {:.1} s",
        group.name,
        tally.compared() - before,
        begun.elapsed().as_secs_f64()
    );
}

pub fn run_all(tally: &mut Tally, plan: Plan) {
    for place in 0..GROUPS.len() {
        run_group(tally, place, plan);
    }
}

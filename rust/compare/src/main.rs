//! Compares every call of the proved library with the reference on many random inputs.
//!
//! `compare` runs all cases, `compare quarter` a quarter of the groups that have many (for an
//! emulator), `compare quick` a twentieth without those that take seconds each, `compare trace`
//! shows each seed before its case, and `compare GROUP SEED` runs one case again.

mod both;
#[cfg(feature = "selftest")]
mod fake;
mod groups;
mod lent;
mod library;
mod pending;
mod run;
mod tally;

use groups::{Group, GROUPS, LONG};
use run::{run_all, run_case, Plan, FIRST_SEED};
use std::process::ExitCode;
use tally::{Tally, DUE, DUE_OF_DEAR, DUE_OF_NEW_KIND, OF_NEW_KIND};

/// What the arguments ask for.
enum Wish {
    All(Plan),
    One(&'static Group, u64),
}

const WHOLE: Plan = Plan {
    dear: true,
    long: 0,
    share: 1,
    trace: false,
};

const QUARTER: Plan = Plan {
    long: LONG,
    share: 4,
    ..WHOLE
};

const QUICK: Plan = Plan {
    dear: false,
    share: 20,
    ..WHOLE
};

fn hexadecimal(text: &str) -> Option<u64> {
    u64::from_str_radix(text.strip_prefix("0x")?, 16).ok()
}

fn wish(arguments: &[String]) -> Option<Wish> {
    let words: Vec<&str> = arguments.iter().map(String::as_str).collect();
    match words[..] {
        [] => Some(Wish::All(WHOLE)),
        ["quarter"] => Some(Wish::All(QUARTER)),
        ["quick"] => Some(Wish::All(QUICK)),
        ["trace"] => Some(Wish::All(Plan {
            trace: true,
            ..WHOLE
        })),
        [name, seed] => {
            let group = GROUPS.iter().find(|group| group.name == name)?;
            Some(Wish::One(group, hexadecimal(seed)?))
        }
        _ => None,
    }
}

/// Asks for the answers that are due to files of either kind.
fn demand_all(tally: &mut Tally) {
    tally.demand(&DUE, "");
    tally.demand(&DUE_OF_NEW_KIND, OF_NEW_KIND);
}

fn main() -> ExitCode {
    let arguments: Vec<String> = std::env::args().skip(1).collect();
    let Some(wish) = wish(&arguments) else {
        eprintln!("compare [quarter | quick | trace | GROUP SEED]");
        return ExitCode::from(2);
    };
    #[cfg(feature = "selftest")]
    fake::plant_from_environment();
    let mut tally = Tally::default();
    match wish {
        Wish::All(plan) => {
            println!("seeds from {FIRST_SEED:#018x}");
            if plan.share > 1 {
                let (long, share) = (plan.long, plan.share);
                println!("of groups that have {long} cases or more, one case in {share} is run");
            }
            run_all(&mut tally, plan);
            demand_all(&mut tally);
            if plan.dear {
                tally.demand(&DUE_OF_DEAR, "");
            }
        }
        Wish::One(group, seed) => run_case(&mut tally, group, seed),
    }
    tally.report();
    if tally.failed() == 0 {
        ExitCode::SUCCESS
    } else {
        ExitCode::FAILURE
    }
}

#[cfg(all(test, feature = "selftest"))]
mod tests {
    use super::fake::{plant, Fault, FOUND_BY};
    use super::run::case_seed;
    use super::*;
    use std::panic::{catch_unwind, resume_unwind, AssertUnwindSafe};

    /// A fault shows in so many cases of its group.
    const FEW: usize = 2_000;

    #[test]
    fn no_difference_without_a_fault() {
        let mut tally = Tally::default();
        run_all(&mut tally, QUICK);
        demand_all(&mut tally);
        assert_eq!(tally.failed(), 0);
        assert!(tally.passed() > 5_000, "{}", tally.passed());
    }

    #[test]
    fn what_was_never_met_is_a_difference() {
        let mut tally = Tally::default();
        demand_all(&mut tally);
        let due = DUE.iter().chain(&DUE_OF_NEW_KIND);
        let due: usize = due.map(|(_, answers)| answers.len()).sum();
        assert_eq!(tally.failed(), due);
    }

    /// Whether a case of the group in a place meets a difference.
    fn differs(place: usize, case: usize) -> bool {
        let mut tally = Tally::default();
        tally.ends_case = true;
        let seed = case_seed(place, case);
        let run = catch_unwind(AssertUnwindSafe(|| {
            run_case(&mut tally, &GROUPS[place], seed);
        }));
        match run {
            Err(panic) if tally.failed() == 0 => resume_unwind(panic),
            _ => tally.failed() > 0,
        }
    }

    /// What is wrong with a table of groups and the faults that they are to find.
    fn complaints(table: &[(&str, &[Fault])]) -> Vec<String> {
        let mut complaints = Vec::new();
        for (name, faults) in table {
            match GROUPS.iter().position(|group| group.name == *name) {
                Some(place) => complaints.extend(complaints_of(place, faults)),
                None => complaints.push(format!("no group is named {name}")),
            }
        }
        complaints
    }

    /// The faults that a group doesn't find; or whether the cases that find them differ without.
    fn complaints_of(place: usize, faults: &[Fault]) -> Vec<String> {
        let Group { name, cases, .. } = GROUPS[place];
        let mut complaints = Vec::new();
        let mut run = 0;
        for fault in faults {
            plant(*fault);
            match (0..cases.min(FEW)).find(|case| differs(place, *case)) {
                Some(case) => run = run.max(case + 1),
                None => complaints.push(format!("{name} doesn't find {fault:?}")),
            }
        }
        plant(Fault::Nothing);
        if (0..run).any(|case| differs(place, case)) {
            complaints.push(format!("{name} finds a difference without a fault"));
        }
        complaints
    }

    #[test]
    fn every_planted_fault_is_found_by_its_group() {
        assert_eq!(complaints(&FOUND_BY), Vec::<String>::new());
    }

    #[test]
    fn a_fault_in_a_wrong_place_is_complained_of() {
        let table: [(&str, &[Fault]); 2] = [("bays", &[Fault::NotLeast]), ("no-such-group", &[])];
        let due = [
            "bays doesn't find NotLeast",
            "no group is named no-such-group",
        ];
        assert_eq!(complaints(&table), due);
    }
}

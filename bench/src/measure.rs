//! Measures contestants in turn, so that a busy machine disturbs all of them alike.

use crate::clock;
use std::time::{Duration, Instant};

/// One of those that are measured in turn.
pub struct Contestant<'a> {
    /// Runs so many times, and answers how long that took without any preparation.
    run: Box<dyn FnMut(u32) -> Duration + 'a>,
    /// In later rounds it has no turn.
    most_rounds: usize,
}

impl<'a> Contestant<'a> {
    pub fn new(run: impl FnMut(u32) -> Duration + 'a) -> Contestant<'a> {
        Contestant {
            run: Box::new(run),
            most_rounds: usize::MAX,
        }
    }

    /// A call that finds its own words in the caches.
    pub fn warm(mut call: impl FnMut() -> u64 + 'a) -> Contestant<'a> {
        Contestant::new(move |repeats| timed_warm(repeats, &mut call))
    }

    /// The contestant with a turn in the first rounds alone.
    pub fn in_first(self, most_rounds: usize) -> Contestant<'a> {
        Contestant {
            most_rounds,
            ..self
        }
    }
}

/// How many rounds there are: no more begin after so long, once there were enough.
pub struct Plan {
    least_rounds: usize,
    most_rounds: usize,
    budget: Duration,
    /// A contestant that is done sooner runs more than once in its turn.
    least_turn: Duration,
}

impl Plan {
    /// The plan for a figure of a call.
    pub fn for_figure(is_long: bool) -> &'static Plan {
        if is_long {
            &LONG
        } else {
            &FIGURE
        }
    }
}

/// Enough for a figure in the table.
pub const FIGURE: Plan = Plan {
    least_rounds: 15,
    most_rounds: 301,
    budget: Duration::from_secs(4),
    least_turn: TURN,
};

/// Enough for the least time of a call: on a busy machine too some rounds are left undisturbed.
pub const LEAST: Plan = Plan {
    least_rounds: 101,
    ..FIGURE
};

/// Enough for a figure of a call that takes half a second or more.
const LONG: Plan = Plan {
    least_rounds: 5,
    most_rounds: 5,
    budget: Duration::ZERO,
    least_turn: Duration::ZERO,
};

/// Enough to see which of several ways is the fastest.
pub const TRIAL: Plan = Plan {
    least_rounds: 3,
    most_rounds: 31,
    budget: Duration::from_secs(2),
    least_turn: TURN,
};

/// Long enough for the clock.
const TURN: Duration = Duration::from_millis(1);

/// Seconds of one run, for each round.
pub struct Times {
    seconds: Vec<f64>,
}

impl Times {
    pub fn median(&self) -> f64 {
        median(self.seconds.clone())
    }

    /// The least of all rounds.
    pub fn least(&self) -> f64 {
        self.seconds.iter().copied().fold(f64::INFINITY, f64::min)
    }

    /// The median of the ratios round by round, over the rounds in which both had a turn.
    pub fn over(&self, other: &Times) -> f64 {
        let rounds = self.seconds.iter().zip(&other.seconds);
        median(rounds.map(|(one, another)| one / another).collect())
    }
}

fn median(mut numbers: Vec<f64>) -> f64 {
    numbers.sort_by(f64::total_cmp);
    numbers[numbers.len() / 2]
}

/// How long so many calls take.
pub fn timed<A>(repeats: u32, mut call: impl FnMut() -> A) -> Duration {
    let begun = clock::now();
    for _ in 0..repeats {
        std::hint::black_box(call());
    }
    clock::now() - begun
}

/// What a call answers and how many seconds it takes, for one that takes so long that once is enough.
pub fn once<A>(call: impl FnOnce() -> A) -> (A, f64) {
    let begun = clock::now();
    let answer = call();
    (answer, (clock::now() - begun).as_secs_f64())
}

/// How long so many calls take after one that is not counted, so that each turn finds its own words in the caches.
pub fn timed_warm<A>(repeats: u32, mut call: impl FnMut() -> A) -> Duration {
    call();
    timed(repeats, call)
}

/// The times of each contestant; they have their turns round by round.
pub fn in_turn(plan: &Plan, mut contestants: Vec<Contestant>) -> Vec<Times> {
    let repeats: Vec<u32> = contestants
        .iter_mut()
        .map(|contestant| repeats_of(plan, contestant))
        .collect();
    let mut all: Vec<Times> = repeats.iter().map(|_| Times { seconds: vec![] }).collect();
    let begun = Instant::now();
    for round in 0..plan.most_rounds {
        if round >= plan.least_rounds && begun.elapsed() > plan.budget {
            break;
        }
        for ((times, contestant), &repeats) in all.iter_mut().zip(&mut contestants).zip(&repeats) {
            if round < contestant.most_rounds {
                let turn = (contestant.run)(repeats);
                times.seconds.push(turn.as_secs_f64() / f64::from(repeats));
            }
        }
    }
    all
}

/// How many runs make a turn; where any turn is long enough none is tried.
fn repeats_of(plan: &Plan, contestant: &mut Contestant) -> u32 {
    if plan.least_turn.is_zero() {
        return 1;
    }
    let run = (contestant.run)(1).max(Duration::from_nanos(100));
    plan.least_turn.as_nanos().div_ceil(run.as_nanos()) as u32
}

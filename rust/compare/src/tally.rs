//! Counts of comparisons and differences, and how differences are shown.

use crate::lent::Item;
use reference::limits::BEFORE;
use std::collections::BTreeMap;
use std::fmt::Write;
use std::panic::resume_unwind;

/// The kinds of comparison, in the order of the report.
pub const KINDS: [&str; 30] = [
    "check",
    "open",
    "find",
    "add_operator",
    "replace_start",
    "replace_goal",
    "build",
    "build_lots",
    "line",
    "weight_file",
    "check_line",
    "fresh",
    "open_partial",
    "check_partial",
    "build_partial",
    "build_partial_lean",
    "silence",
    "mend",
    "dropped",
    "pair_fault",
    "display",
    "display_partial",
    "display_bay",
    "to_new",
    "to_old",
    "weights_to_new",
    "weights_to_old",
    "check_new",
    "check_partial_new",
    "display_new",
];

/// What stands behind an answer to a task file of the new kind.
pub const OF_NEW_KIND: &str = " of new kind";

/// Answers that a run of many groups has to meet, or it says nothing of them.
pub const DUE: [(&str, &[&str]); 32] = [
    ("check", FORMS),
    ("check", &["far operator"]),
    ("open", FORMS),
    (
        "build",
        &[
            "done",
            "done of many slots",
            "refused 1",
            "refused 12",
            "refused 13",
            "refused 2",
            "refused 3",
            "refused 5",
            "refused 8",
            "refused 8 of many slots",
            "refused 10",
            "refused 11",
        ],
    ),
    (
        "build_lots",
        &[
            "done",
            "done of many slots",
            "refused 8",
            "refused 8 of many slots",
        ],
    ),
    (
        "line",
        &[
            "line refused 1 at",
            "line refused 12 at",
            "line refused 13 at",
            "line refused 2 at",
            "line refused 3 at",
            "line refused 4 at",
            "line refused 5",
            "line refused 6",
            "line refused 7",
            "line refused 8",
        ],
    ),
    (
        "check_line",
        &[
            "line refused 1 at in task",
            "line refused 12 at in task",
            "line refused 13 at in task",
            "line refused 2 at in task",
            "line refused 3 at in task",
            "line refused 4 at in task",
            "line refused 1 at in weights",
            "line refused 12 at in weights",
            "line refused 13 at in weights",
            "line refused 3 at in weights",
            "line refused 4 at in weights",
            "line refused 5",
            "line refused 6",
            "line refused 7",
        ],
    ),
    ("open_partial", FORMS),
    ("check_partial", FORMS),
    ("build_partial", FORMS),
    ("build_partial_lean", FORMS),
    ("silence", FORMS),
    ("mend", &["done", "unchanged"]),
    ("mend", AS_READ),
    ("dropped", &["done", "nothing"]),
    ("dropped", AS_READ),
    (
        "pair_fault",
        &[
            "good",
            "held",
            "unclosed at first operator",
            "unclosed at later operator",
        ],
    ),
    ("pair_fault", AS_READ),
    ("display", SHOWN),
    ("display_partial", SHOWN),
    (
        "display_bay",
        &[
            "nothing",
            "1 in task",
            "1 at end of task",
            "12 in task",
            "13 in task",
            "2 in task",
            "3 in task",
            "5 nowhere",
            "10 nowhere",
            "11 nowhere",
            "refused 8",
        ],
    ),
    ("to_new", &["done", "refused 6", "refused 7"]),
    ("to_new", AS_READ),
    ("to_old", &["done", "refused 6", "refused 7"]),
    ("to_old", AS_READ),
    ("weights_to_new", &["done", "refused 6", "refused 7"]),
    ("weights_to_new", AS_READ),
    ("weights_to_old", &["done", "refused 6", "refused 7"]),
    ("weights_to_old", AS_READ),
    ("check_new", VERDICTS),
    ("check_partial_new", VERDICTS),
    ("display_new", SHOWN_BY_GAPS),
];

/// Answers that it has to meet to task files of the new kind.
pub const DUE_OF_NEW_KIND: [(&str, &[&str]); 17] = [
    ("check", VERDICTS),
    ("check_new", VERDICTS),
    ("open", &["done", "refused 6", "refused 7"]),
    ("open", AS_READ),
    (
        "line",
        &[
            "line separated",
            "line none",
            "line refused 1 at",
            "line refused 12 at",
            "line refused 13 at",
            "line refused 2 at",
            "line refused 3 at",
            "line refused 4 at",
            "line refused 5",
            "line refused 6",
            "line refused 7",
            "line refused 8",
        ],
    ),
    (
        "check_line",
        &[
            "line accepted",
            "line refused 3 at in task",
            "line refused 3 at in weights",
        ],
    ),
    ("silence", &["done", "refused 6", "refused 7"]),
    ("silence", AS_READ),
    ("mend", &["done", "unchanged"]),
    ("mend", AS_READ),
    ("dropped", &["done", "nothing"]),
    ("dropped", AS_READ),
    (
        "pair_fault",
        &["good", "held", "unclosed at later operator"],
    ),
    ("pair_fault", AS_READ),
    ("display", SHOWN),
    ("display_new", SHOWN_BY_GAPS),
    ("weights_to_new", AS_READ),
];

/// Answers that only a group has to meet of which one case takes seconds.
pub const DUE_OF_DEAR: [(&str, &[&str]); 1] = [("display_partial", &["2 nowhere"])];

/// A number may end too early, be too long for what it says, or have no end.
const FORMS: &[&str] = &["refused 1", "refused 12", "refused 13"];

/// What is refused in a task file before its pairs are judged, and room.
const AS_READ: &[&str] = &[
    "refused 1",
    "refused 12",
    "refused 13",
    "refused 2",
    "refused 3",
    "refused 4",
    "refused 5",
    "refused 8",
];

/// Every verdict, and what is refused as it is read.
const VERDICTS: &[&str] = &[
    "done",
    "alike or none",
    "first operator",
    "later operator",
    "refused 1",
    "refused 12",
    "refused 13",
    "refused 2",
    "refused 3",
    "refused 5",
    "refused 6",
    "refused 7",
];

/// What is shown of a task, and of weights of the new kind beside it, which are never unordered.
const SHOWN_BY_GAPS: &[&str] = &[
    "nothing",
    "1 in task",
    "1 at end of task",
    "12 in task",
    "13 in task",
    "2 in task",
    "3 in task",
    "4 in task",
    "5 nowhere",
    "6 nowhere",
    "7 nowhere",
    "1 in weights",
    "1 at end of weights",
    "12 in weights",
    "13 in weights",
    "3 in weights",
    "refused 8",
];

/// What is shown of a task or a partial file, and of weights beside it.
const SHOWN: &[&str] = &[
    "nothing",
    "1 in task",
    "1 at end of task",
    "12 in task",
    "13 in task",
    "2 in task",
    "3 in task",
    "4 in task",
    "5 nowhere",
    "6 nowhere",
    "7 nowhere",
    "1 in weights",
    "1 at end of weights",
    "12 in weights",
    "13 in weights",
    "3 in weights",
    "4 in weights",
    "refused 8",
];

/// More items than this are shown only where they differ.
const MOST_SHOWN: usize = 4_096;

/// More differences than this are only counted.
const MOST_DIFFERENCES: usize = 10;

/// What one side handed back and left in lent memory.
#[derive(Clone, Debug, PartialEq, Eq)]
pub struct Outcome<Kind> {
    pub number: u64,
    pub memory: Vec<Kind>,
}

impl<Kind> Outcome<Kind> {
    /// Runs a call on a copy of the memory.
    pub fn of(memory: &[Kind], call: impl FnOnce(&mut [Kind]) -> u64) -> Self
    where
        Kind: Clone,
    {
        let mut memory = memory.to_vec();
        let number = call(&mut memory);
        Outcome { number, memory }
    }
}

/// What is compared, and how to rebuild and show it.
pub struct Comparison<'a> {
    pub kind: &'static str,
    /// The reference's answer in the rules' words.
    pub answer: String,
    pub source: &'a str,
    /// The inputs are written out only on a difference.
    pub inputs: &'a dyn Fn() -> Vec<(&'static str, String)>,
    /// Whether memory that was not lent for writing stayed.
    pub outside_kept: bool,
}

#[derive(Default)]
struct Count {
    passed: usize,
    failed: usize,
    answers: BTreeMap<String, usize>,
}

#[derive(Default)]
pub struct Tally {
    counts: BTreeMap<&'static str, Count>,
    /// A difference ends its case, unseen, where a test only wants to know that there is one.
    pub ends_case: bool,
}

/// A result in the rules' words.
pub fn answer(number: u64) -> String {
    let value = number & 0xFFFF_FFFF;
    match number >> 32 {
        0 => "done".to_string(),
        1 => "alike or none".to_string(),
        2 if value == 0 => "first operator".to_string(),
        2 if value > BEFORE.largest() as u64 => "far operator".to_string(),
        2 => "later operator".to_string(),
        3 => format!("refused {value}"),
        case => format!("case {case}"),
    }
}

pub fn hexadecimal<Kind: Item>(items: &[Kind]) -> String {
    let mut text = String::new();
    for item in items {
        write!(text, "{item:0digits$x} ", digits = Kind::DIGITS).expect("text grows");
    }
    text.trim_end().to_string()
}

/// The items, or how many there are where they would fill pages.
pub fn shown<Kind: Item>(items: &[Kind]) -> String {
    if items.len() <= MOST_SHOWN {
        hexadecimal(items)
    } else {
        format!("{} items, rebuilt by running this seed again", items.len())
    }
}

/// The first places where the two sides left different items.
fn places<Kind: Item>(expected: &[Kind], found: &[Kind]) -> String {
    let mut text = String::new();
    let pairs = expected.iter().zip(found).enumerate();
    let different = pairs.filter(|(_, (left, right))| left != right);
    for (place, (left, right)) in different.take(8) {
        write!(text, "{place}: {left:x} against {right:x}; ").expect("text grows");
    }
    text
}

fn show<Kind: Item>(comparison: &Comparison, expected: &Outcome<Kind>, found: &Outcome<Kind>) {
    println!("difference in {}, {}", comparison.kind, comparison.source);
    for (name, text) in (comparison.inputs)() {
        println!("  {name}: {text}");
    }
    println!("  due: {}", comparison.answer);
    for (side, outcome) in [("reference", expected), ("library", found)] {
        let (case, value) = (outcome.number >> 32, outcome.number & 0xFFFF_FFFF);
        let memory = shown(&outcome.memory);
        println!("  {side}: case {case}, value {value}; memory {memory}");
    }
    let different = places(&expected.memory, &found.memory);
    println!("  places of memory that differ: {different}");
    if !comparison.outside_kept {
        println!("  memory that was not lent for writing was changed");
    }
}

impl Tally {
    /// Counts a comparison; on a difference shows where it came from and both outcomes.
    pub fn judge<Kind: Item>(
        &mut self,
        comparison: &Comparison,
        expected: &Outcome<Kind>,
        found: &Outcome<Kind>,
    ) {
        let count = self.counts.entry(comparison.kind).or_default();
        *count.answers.entry(comparison.answer.clone()).or_default() += 1;
        if expected == found && comparison.outside_kept {
            count.passed += 1;
            return;
        }
        count.failed += 1;
        if self.ends_case {
            resume_unwind(Box::new("a difference"));
        }
        if self.failed() <= MOST_DIFFERENCES {
            show(comparison, expected, found);
        }
    }

    /// Counts each answer that is due and was never met as a difference.
    pub fn demand(&mut self, due: &[(&'static str, &[&str])], behind: &str) {
        for (kind, answers) in due.iter().copied() {
            let count = self.counts.entry(kind).or_default();
            for answer in answers.iter().map(|answer| format!("{answer}{behind}")) {
                if !count.answers.contains_key(&answer) {
                    count.failed += 1;
                    println!("{kind}: never answered {answer}");
                }
            }
        }
    }

    pub fn passed(&self) -> usize {
        self.counts.values().map(|count| count.passed).sum()
    }

    pub fn failed(&self) -> usize {
        self.counts.values().map(|count| count.failed).sum()
    }

    pub fn compared(&self) -> usize {
        self.passed() + self.failed()
    }

    /// One line for each kind of comparison, with the answers that were met.
    pub fn report(&self) {
        for kind in KINDS {
            let Some(count) = self.counts.get(kind) else {
                continue;
            };
            let answers: Vec<String> = count
                .answers
                .iter()
                .map(|(answer, times)| format!("{answer}: {times}"))
                .collect();
            println!(
                "{kind}: {} comparisons, {} differences ({})",
                count.passed + count.failed,
                count.failed,
                answers.join(", ")
            );
        }
        println!(
            "{} comparisons, {} differences",
            self.compared(),
            self.failed()
        );
        let (good, bad) = self.kinds();
        println!("compare: {good} passed, {bad} failed");
    }

    /// How many kinds of comparison passed and failed; what was never compared has failed nothing.
    fn kinds(&self) -> (usize, usize) {
        let bad = self
            .counts
            .values()
            .filter(|count| count.failed > 0)
            .count();
        (self.counts.len() - bad, bad)
    }
}

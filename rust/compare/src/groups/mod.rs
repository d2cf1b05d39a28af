//! Groups of random inputs, with the number of cases that each one runs.

mod bays;
mod converted;
mod converted_weights;
mod edits;
mod files;
mod kept;
mod kinds;
mod large;
mod lines;
mod mended;
mod partials;
mod places;
mod sets;
mod settled;
mod silenced;
mod sixteen;
mod wider;
mod words;

use crate::both::Both;
use reference::line;
use reference::sample::tasks::{Scale, MEDIUM, SMALL, TINY, WORD_EDGES};
use reference::sample::{tasks, Generator};
use reference::task::Task;

/// A kind of case, run so many times with seeds of its own.
pub struct Group {
    pub name: &'static str,
    pub cases: usize,
    pub run: fn(&mut Both, &mut Generator),
}

/// The counts make an optimised run take about a minute and a half.
pub const GROUPS: [Group; 87] = [
    Group {
        name: "weights",
        cases: 40_000,
        run: files::weights,
    },
    Group {
        name: "damaged-weights",
        cases: 40_000,
        run: files::damaged_weights,
    },
    Group {
        name: "damaged-tasks",
        cases: 100_000,
        run: files::damaged_tasks,
    },
    Group {
        name: "unclosed-tasks",
        cases: 50_000,
        run: files::unclosed_tasks,
    },
    Group {
        name: "openings",
        cases: 30_000,
        run: files::openings,
    },
    Group {
        name: "foreign-words",
        cases: 30_000,
        run: words::foreign,
    },
    Group {
        name: "damaged-words",
        cases: 60_000,
        run: words::damaged,
    },
    Group {
        name: "edits",
        cases: 20_000,
        run: edits::opened,
    },
    Group {
        name: "foreign-edits",
        cases: 20_000,
        run: edits::foreign,
    },
    Group {
        name: "bays",
        cases: 4_000,
        run: bays::built,
    },
    Group {
        name: "damaged-bays",
        cases: 80_000,
        run: bays::damaged,
    },
    Group {
        name: "small-bays",
        cases: 300,
        run: bays::solved,
    },
    Group {
        name: "lines",
        cases: 30_000,
        run: lines::lines,
    },
    Group {
        name: "limits-of-lines",
        cases: 1_000,
        run: lines::limits,
    },
    Group {
        name: "many-operators",
        cases: 1_000,
        run: large::many_operators,
    },
    Group {
        name: "long-counts",
        cases: 8,
        run: large::long_counts,
    },
    Group {
        name: "wide",
        cases: 100,
        run: large::wide,
    },
    Group {
        name: "large",
        cases: 80,
        run: large::large,
    },
    Group {
        name: "middling",
        cases: 60,
        run: large::middling,
    },
    Group {
        name: "nine-slots",
        cases: 8,
        run: large::nine_slots,
    },
    Group {
        name: "found-sets",
        cases: 10_000,
        run: sets::found,
    },
    Group {
        name: "sets",
        cases: 20_000,
        run: sets::any,
    },
    Group {
        name: "sets-of-long-numbers",
        cases: 2_000,
        run: sets::long_numbers,
    },
    Group {
        name: "limits-of-sets",
        cases: 4_000,
        run: sets::limits,
    },
    Group {
        name: "partials",
        cases: 4_000,
        run: partials::built,
    },
    Group {
        name: "partial-weights",
        cases: 8_000,
        run: partials::weights,
    },
    Group {
        name: "partial-answers",
        cases: 4_000,
        run: partials::answers,
    },
    Group {
        name: "damaged-partials",
        cases: 40_000,
        run: partials::damaged,
    },
    Group {
        name: "unclosed-partials",
        cases: 15_000,
        run: partials::unclosed,
    },
    Group {
        name: "silenced-bays",
        cases: 60,
        run: partials::bays,
    },
    Group {
        name: "partials-cut-at-limits",
        cases: 2_000,
        run: partials::cut_at_limits,
    },
    Group {
        name: "limits-of-partials",
        cases: 60,
        run: partials::limits,
    },
    Group {
        name: "kept-operators",
        cases: 16,
        run: kept::counted,
    },
    Group {
        name: "silenced",
        cases: 10_000,
        run: silenced::good,
    },
    Group {
        name: "damaged-silenced",
        cases: 20_000,
        run: silenced::damaged,
    },
    Group {
        name: "silenced-cut-at-limits",
        cases: 2_000,
        run: silenced::cut_at_limits,
    },
    Group {
        name: "limits-of-silenced",
        cases: 200,
        run: silenced::limits,
    },
    Group {
        name: "every-small-bay",
        cases: 1,
        run: bays::every,
    },
    Group {
        name: "handmade-lists",
        cases: 12_000,
        run: mended::lists,
    },
    Group {
        name: "step-by-step",
        cases: 4_000,
        run: mended::step_by_step,
    },
    Group {
        name: "damaged-lists",
        cases: 30_000,
        run: mended::damaged,
    },
    Group {
        name: "handmade-bays",
        cases: 80,
        run: mended::bays,
    },
    Group {
        name: "large-lists",
        cases: 100,
        run: mended::large,
    },
    Group {
        name: "late-operators",
        cases: 120,
        run: mended::late_operators,
    },
    Group {
        name: "every-small-list",
        cases: 1,
        run: mended::every,
    },
    Group {
        name: "places-in-tasks",
        cases: 80_000,
        run: places::tasks,
    },
    Group {
        name: "places-in-weights",
        cases: 20_000,
        run: places::weights,
    },
    Group {
        name: "places-in-partials",
        cases: 60_000,
        run: places::partial_files,
    },
    Group {
        name: "places-in-partial-weights",
        cases: 10_000,
        run: places::partial_weights,
    },
    Group {
        name: "places-in-bays",
        cases: 60_000,
        run: places::bays,
    },
    Group {
        name: "every-length",
        cases: 3_000,
        run: places::every_length,
    },
    Group {
        name: "every-form",
        cases: 700,
        run: places::every_form,
    },
    Group {
        name: "every-byte",
        cases: 100,
        run: places::every_byte,
    },
    Group {
        name: "every-shape",
        cases: 1,
        run: places::every_shape,
    },
    Group {
        name: "limits-of-places",
        cases: 4_000,
        run: places::limits,
    },
    Group {
        name: "late-places",
        cases: 400,
        run: places::late_operators,
    },
    Group {
        name: "late-places-in-weights",
        cases: 200,
        run: places::late_weights,
    },
    Group {
        name: "wider-tasks",
        cases: 1_200,
        run: wider::tasks,
    },
    Group {
        name: "wider-lists",
        cases: 500,
        run: wider::lists,
    },
    Group {
        name: "wider-partials",
        cases: 250,
        run: wider::partial_files,
    },
    Group {
        name: "long-bays",
        cases: 60,
        run: sixteen::judged,
    },
    Group {
        name: "lists-of-long-bays",
        cases: 24,
        run: sixteen::lists,
    },
    Group {
        name: "silenced-long-bays",
        cases: 60,
        run: sixteen::silenced,
    },
    Group {
        name: "openings-of-silenced-long-bays",
        cases: 8,
        run: sixteen::silenced_openings,
    },
    Group {
        name: "kept-in-millions",
        cases: 1,
        run: kept::counted_in_millions,
    },
    Group {
        name: "operators-in-millions",
        cases: 1,
        run: large::operators_in_millions,
    },
    Group {
        name: "wider-words",
        cases: 1,
        run: wider::words,
    },
    Group {
        name: "wider-openings",
        cases: 6,
        run: wider::openings,
    },
    Group {
        name: "twelve-slots",
        cases: 6,
        run: sixteen::twelve,
    },
    Group {
        name: "fifteen-slots",
        cases: 2,
        run: sixteen::fifteen,
    },
    Group {
        name: "four-by-four",
        cases: 1,
        run: sixteen::four_by_four,
    },
    Group {
        name: "settled",
        cases: 2_500,
        run: settled::opened,
    },
    Group {
        name: "converted",
        cases: 12_000,
        run: converted::converted,
    },
    Group {
        name: "damaged-converted",
        cases: 80_000,
        run: converted::damaged,
    },
    Group {
        name: "damaged-new-tasks",
        cases: 40_000,
        run: converted::damaged_tasks,
    },
    Group {
        name: "gap-lists-about-ranges",
        cases: 30_000,
        run: converted::edged,
    },
    Group {
        name: "converted-weights",
        cases: 10_000,
        run: converted_weights::weights,
    },
    Group {
        name: "damaged-converted-weights",
        cases: 40_000,
        run: converted_weights::damaged_weights,
    },
    Group {
        name: "new-weights-beside-partials",
        cases: 4_000,
        run: converted_weights::beside_partials,
    },
    Group {
        name: "converted-bays",
        cases: 60,
        run: converted::bays,
    },
    Group {
        name: "wider-converted",
        cases: 200,
        run: converted::wider,
    },
    Group {
        name: "converted-cut-at-limits",
        cases: 2_000,
        run: converted::cut_at_limits,
    },
    Group {
        name: "many-operators-converted",
        cases: 100,
        run: converted::many_operators,
    },
    Group {
        name: "every-small-list-converted",
        cases: 1,
        run: converted::every,
    },
    Group {
        name: "every-small-weight-list-converted",
        cases: 1,
        run: converted_weights::every_weights,
    },
    Group {
        name: "every-first-number",
        cases: 1,
        run: converted::every_first_number,
    },
    Group {
        name: "converted-at-every-length",
        cases: 2_000,
        run: converted::every_length,
    },
];

/// Groups of so many cases are long: under an emulator a part of them is run.
pub const LONG: usize = 100;

/// Groups of which one case takes seconds.
const DEAR: [&str; 7] = [
    "kept-in-millions",
    "operators-in-millions",
    "wider-words",
    "wider-openings",
    "twelve-slots",
    "fifteen-slots",
    "four-by-four",
];

impl Group {
    /// Whether one case takes seconds.
    pub fn is_dear(&self) -> bool {
        DEAR.contains(&self.name)
    }
}

/// Mostly tiny and small tasks, some of several words.
fn scale(generator: &mut Generator) -> Scale {
    match generator.below(10) {
        0..=3 => TINY,
        4..=8 => SMALL,
        _ => MEDIUM,
    }
}

/// Sizes of some scale, now and then at the edges of words.
fn some_sizes(generator: &mut Generator) -> Vec<usize> {
    if generator.once_in(20) {
        return generator.choose(&WORD_EDGES).to_vec();
    }
    let scale = scale(generator);
    tasks::sizes(generator, scale)
}

/// An accepted task.
fn task(generator: &mut Generator) -> Task {
    let sizes = some_sizes(generator);
    let most_operators = generator.choose(&[4, 10, 16]);
    tasks::accepted_task(generator, &sizes, most_operators)
}

/// A length of lent room: too small, exact or larger.
fn room_length(generator: &mut Generator, due: usize) -> usize {
    match generator.below(8) {
        0 => 0,
        1 => due - 1,
        2 => generator.below(due),
        3 | 4 => due,
        5 => due + 1,
        _ => due + generator.below(20),
    }
}

/// Room with junk in it.
fn room(generator: &mut Generator, due: usize) -> Vec<u64> {
    let length = room_length(generator, due);
    generator.words(length)
}

/// Room that is large enough, with junk in it.
fn ample_room(generator: &mut Generator, due: usize) -> Vec<u64> {
    let more = generator.below(4);
    generator.words(due + more)
}

fn byte_room(generator: &mut Generator, due: usize) -> Vec<u8> {
    let length = room_length(generator, due);
    generator.bytes(length)
}

/// The checker's line in all kinds of room.
fn check_line(both: &mut Both, generator: &mut Generator, task: &[u8], weights: &[u8]) {
    let due = line::check_line(task, weights).len();
    let room = byte_room(generator, due);
    both.check_line(task, weights, &room);
}

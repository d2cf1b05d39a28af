//! Each public call on inputs that lead it far: bays, orders for them, and tasks near the limits.

use super::painted::{self, Face};
use crate::answer;
use crate::tasks::{self, bays};
use std::collections::HashMap;

/// The public calls. Only their addresses are taken here.
macro_rules! faces {
    ($($name:ident)*) => {
        #[allow(clashing_extern_declarations)]
        extern "C" {
            $(fn $name();)*
        }

        const FACES: &[(&str, Face)] = &[$((stringify!($name), $name)),*];
    };
}

faces! {
    florumeja_add_operator
    florumeja_build
    florumeja_build_partial
    florumeja_build_partial_lean
    florumeja_check
    florumeja_check_line
    florumeja_check_new
    florumeja_check_partial
    florumeja_check_partial_new
    florumeja_display
    florumeja_display_bay
    florumeja_display_new
    florumeja_display_partial
    florumeja_dropped
    florumeja_find
    florumeja_line
    florumeja_mend
    florumeja_open
    florumeja_open_partial
    florumeja_pair_fault
    florumeja_replace_goal
    florumeja_replace_start
    florumeja_silence
    florumeja_to_new
    florumeja_to_old
    florumeja_weight_file
    florumeja_weights_to_new
    florumeja_weights_to_old
}

/// Room in words and in bytes that is never too small for the inputs here, and for what is found.
const WORDS: usize = 16_777_921;
const BYTES: usize = 1 << 17;
const FOUND: usize = 512;

/// Weights that are refused whatever the task is: one feature, 2,097,151.
const PAST_ALL: [u8; 4] = [1, 0xff, 0xff, 0x7f];

/// The same as a new file.
const NEW_PAST_ALL: [u8; 5] = [0, 1, 0xff, 0xff, 0x7f];

/// A bay file that is refused for the number that is read deepest: the third byte of its rows says that more follows.
const ENDLESS: [u8; 3] = [0x80, 0x80, 0x80];

/// The most bytes that each call took.
pub fn deepest() -> HashMap<&'static str, usize> {
    let mut runs = Runs::default();
    runs.bay(&bays::bay_file(4, 4));
    for case in tasks::cases() {
        eprintln!("{} ..", case.name);
        runs.task(&case.file);
        runs.new_task(&case.file);
    }
    runs.deepest
}

/// A slice as an argument: where it begins, and its length.
fn part<T>(slice: &[T]) -> [u64; 2] {
    [slice.as_ptr() as u64, slice.len() as u64]
}

fn lent<T>(slice: &mut [T]) -> [u64; 2] {
    [slice.as_mut_ptr() as u64, slice.len() as u64]
}

/// Weights of an order whose ends differ, so that its operators are weighed: the start's value of the first variable, which is silent.
fn first_value(order: &[u8]) -> Vec<u8> {
    match order {
        [variables, rest @ ..] => vec![1, rest[2 * usize::from(*variables)]],
        [] => vec![0],
    }
}

/// The same as a new file: a list of one feature has no gap.
fn first_value_anew(order: &[u8]) -> Vec<u8> {
    [vec![0], first_value(order)].concat()
}

/// Marks that leave the first two variables of an old task file silent.
fn marks_of(file: &[u8]) -> Vec<u8> {
    let mut marks = vec![1u8; usize::from(file[0])];
    marks[..2].fill(0);
    marks
}

#[derive(Default)]
struct Runs {
    deepest: HashMap<&'static str, usize>,
}

impl Runs {
    fn run(&mut self, call: &str, arguments: &[u64]) -> u64 {
        let (name, face) = *FACES
            .iter()
            .find(|(name, _)| *name == call)
            .expect("each call that is run is a public one");
        // SAFETY: the arguments are slices that outlive the call, and those lent for writing share no byte with another.
        let outcome = unsafe { painted::run(face, arguments) };
        let deepest = self.deepest.entry(name).or_default();
        *deepest = outcome.depth.max(*deepest);
        outcome.answer
    }

    /// A call that writes a file or a line, and what it writes; nothing where it is refused.
    fn written(&mut self, call: &str, arguments: &[[u64; 2]]) -> Vec<u8> {
        let mut room = vec![0u8; BYTES];
        let answer = self.run(call, &[arguments, &[lent(&mut room)]].concat().concat());
        room.truncate(answer::value(answer).unwrap_or(0));
        room
    }

    /// A call that leaves words: its answer, and the room.
    fn words(&mut self, call: &str, arguments: &[[u64; 2]], length: usize) -> (u64, Vec<u64>) {
        let mut room = vec![0u64; length];
        let answer = self.run(call, &[arguments, &[lent(&mut room)]].concat().concat());
        (answer, room)
    }

    fn bay(&mut self, file: &[u8]) {
        for file in [file, &ENDLESS] {
            self.written("florumeja_build", &[part(file)]);
            self.words("florumeja_display_bay", &[part(file)], 2);
        }
    }

    fn task(&mut self, file: &[u8]) {
        let weights = self.workspace("florumeja_open", file);
        self.run("florumeja_check", &[part(file), part(&weights)].concat());
        self.written("florumeja_check_line", &[part(file), part(&weights)]);
        self.written("florumeja_check_line", &[part(file), part(&PAST_ALL)]);
        self.words("florumeja_display", &[part(file), part(&PAST_ALL)], 2);
        self.written("florumeja_line", &[part(file)]);
        self.written("florumeja_mend", &[part(file)]);
        self.written("florumeja_dropped", &[part(file)]);
        self.words("florumeja_pair_fault", &[part(file)], 2);
        let marks = marks_of(file);
        let order = self.written("florumeja_silence", &[part(file), part(&marks)]);
        self.order(&order);
    }

    /// The same task as a new file, and the calls that read new files or write them.
    fn new_task(&mut self, file: &[u8]) {
        let new = self.written("florumeja_to_new", &[part(file)]);
        self.written("florumeja_to_old", &[part(&new)]);
        let weights = self.workspace("florumeja_open", &new);
        let both = [part(&new), part(&weights)];
        let new_weights = self.written("florumeja_weights_to_new", &both);
        let both = [part(&new), part(&new_weights)];
        self.written("florumeja_weights_to_old", &both);
        self.run("florumeja_check_new", &both.concat());
        self.words(
            "florumeja_display_new",
            &[part(&new), part(&NEW_PAST_ALL)],
            2,
        );
        self.run("florumeja_check", &[part(&new), part(&weights)].concat());
        self.written("florumeja_check_line", &[part(&new), part(&PAST_ALL)]);
        self.words("florumeja_display", &[part(&new), part(&PAST_ALL)], 2);
        self.written("florumeja_line", &[part(&new)]);
        self.written("florumeja_mend", &[part(&new)]);
        self.written("florumeja_dropped", &[part(&new)]);
        self.words("florumeja_pair_fault", &[part(&new)], 2);
        let marks = marks_of(file);
        self.written("florumeja_silence", &[part(&new), part(&marks)]);
    }

    /// An order; a task near the limits has none, and then this is an empty file.
    fn order(&mut self, file: &[u8]) {
        self.written("florumeja_build_partial", &[part(file)]);
        self.written("florumeja_build_partial_lean", &[part(file)]);
        self.workspace("florumeja_open_partial", file);
        let weights = first_value(file);
        self.run(
            "florumeja_check_partial",
            &[part(file), part(&weights)].concat(),
        );
        let weights = first_value_anew(file);
        self.run(
            "florumeja_check_partial_new",
            &[part(file), part(&weights)].concat(),
        );
        self.words(
            "florumeja_display_partial",
            &[part(file), part(&PAST_ALL)],
            2,
        );
    }

    /// Opens a workspace, edits it and searches it; the weights that are found as a file.
    fn workspace(&mut self, open: &str, file: &[u8]) -> Vec<u8> {
        let (answer, mut workspace) = self.words(open, &[part(file)], WORDS);
        let Some(due) = answer::value(answer) else {
            return vec![0];
        };
        workspace.truncate(due);
        let (_, found) = self.words("florumeja_find", &[part(&workspace)], FOUND);
        let weights = self.written("florumeja_weight_file", &[part(&found)]);
        let variables = workspace[0] as usize;
        let start = workspace[1 + variables..][..variables].to_vec();
        let goal = workspace[1 + 2 * variables..][..variables].to_vec();
        for (call, values) in [
            ("florumeja_replace_start", &start),
            ("florumeja_replace_goal", &goal),
        ] {
            self.run(call, &[lent(&mut workspace), part(values)].concat());
        }
        self.exchange(&mut workspace, &start);
        weights
    }

    /// Adds the operator that exchanges the start's first two values.
    fn exchange(&mut self, workspace: &mut [u64], start: &[u64]) {
        let variables = [0u64, 1];
        let befores = [start[0], start[1]];
        let afters = [start[1], start[0]];
        let slices = [part(&variables), part(&befores), part(&afters)].concat();
        let arguments = [&lent(workspace)[..], &[2], &slices].concat();
        self.run("florumeja_add_operator", &arguments);
    }
}

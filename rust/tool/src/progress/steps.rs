//! The steps of a large task, told while they are taken.
//!
//! A step is one call of the library, or a few. Nothing is known of its inside, so nothing is told but
//! what it does and since when.

use super::{write, Shown, CLEAR};
use crate::args::Arguments;
use crate::library::MOST_WORDS;
use crate::output::complain;
use std::sync::mpsc::{channel, RecvTimeoutError};
use std::thread::{self, Builder};
use std::time::{Duration, Instant};

/// Opening a workspace of so many words, 34 MB, takes about a fifth of a second for a bay, and can take
/// seconds for another task; less is not worth a word.
const LARGE_WORDS: usize = 1 << 22;
const SECOND: Duration = Duration::from_secs(1);

/// How the steps of tasks are told, and of what these are a part.
pub struct Telling {
    shown: Shown,
    part: String,
}

impl Telling {
    /// As the command line asks for it.
    pub fn of(arguments: &Arguments) -> Telling {
        Telling::new(Shown::of(arguments))
    }

    pub fn new(shown: Shown) -> Telling {
        let part = String::new();
        Telling { shown, part }
    }

    /// The same for one part of a whole, as in "way 2 of 6".
    pub fn part(&self, noun: &str, number: usize, total: usize) -> Telling {
        let part = format!("{}{noun} {number} of {total}, ", self.part);
        Telling { part, ..*self }
    }

    /// The steps of a task, told only where the task is large; one that is too large is refused at once.
    pub fn steps(&self, words: usize, total: usize) -> Steps<'_> {
        let shown = match (LARGE_WORDS..=MOST_WORDS).contains(&words) {
            true => self.shown,
            false => Shown::Nowhere,
        };
        Steps {
            shown,
            part: &self.part,
            words,
            taken: 0,
            total,
        }
    }
}

pub struct Steps<'a> {
    shown: Shown,
    part: &'a str,
    /// The words of the task's workspace.
    words: usize,
    taken: usize,
    total: usize,
}

impl Steps<'_> {
    /// Takes the next step, and tells of it while it is taken.
    pub fn take<T>(&mut self, doing: &str, step: impl FnOnce() -> T) -> T {
        self.taken += 1;
        let line = self.line(doing);
        match self.shown {
            Shown::Nowhere => step(),
            Shown::InLines => {
                complain(&line);
                step()
            }
            Shown::InPlace => in_place(&line, step),
        }
    }

    /// The same for the step that takes a workspace.
    pub fn open<T>(&mut self, step: impl FnOnce() -> T) -> T {
        let doing = format!("opening a workspace of {} MB", megabytes(self.words));
        self.take(&doing, step)
    }

    fn line(&self, doing: &str) -> String {
        let (part, taken, total) = (self.part, self.taken, self.total);
        format!("{part}step {taken} of {total}: {doing}")
    }
}

// In millions of bytes, of which a word has eight.
fn megabytes(words: usize) -> usize {
    (8 * words + 500_000) / 1_000_000
}

// Shows the line with the seconds that went by, and takes it away when the step is over.
fn in_place<T>(line: &str, step: impl FnOnce() -> T) -> T {
    write(&format!("{CLEAR}{line}"));
    let outcome = thread::scope(|scope| {
        let (working, over) = channel::<()>();
        let begun = Instant::now();
        let clock = move || {
            while over.recv_timeout(SECOND) == Err(RecvTimeoutError::Timeout) {
                let seconds = begun.elapsed().as_secs();
                write(&format!("{CLEAR}{line}, {seconds} s"));
            }
        };
        // Where no clock can be started the step is taken all the same.
        let _ = Builder::new().spawn_scoped(scope, clock);
        let outcome = step();
        drop(working);
        outcome
    });
    write(CLEAR);
    outcome
}

#[cfg(test)]
mod tests {
    use super::*;

    // 14,992,917 words of eight bytes are 119,943,336 bytes.
    #[test]
    fn a_line_tells_the_step_and_what_it_is_a_part_of() {
        let telling = Telling::new(Shown::Nowhere).part("bay", 5, 18);
        let way = telling.part("way", 2, 6);
        let mut steps = way.steps(14_992_917, 4);
        assert_eq!(steps.take("building the task", || 7), 7);
        steps.taken += 1;
        assert_eq!(
            steps.line("finding weights"),
            "bay 5 of 18, way 2 of 6, step 2 of 4: finding weights"
        );
        assert_eq!(megabytes(14_992_917), 120);
    }

    // Fourteen slots are large, and twelve are not; sixteen with "unknown" in each are too large.
    #[test]
    fn only_large_tasks_are_told_of() {
        let telling = Telling::new(Shown::InLines);
        let shown = |slots: usize, labels: usize| {
            let words = crate::library::words_due(&vec![labels; slots]);
            telling.steps(words, 4).shown
        };
        for (slots, labels) in [(14, 14), (15, 15), (15, 16), (16, 16)] {
            assert_eq!(shown(slots, labels), Shown::InLines, "{slots} {labels}");
        }
        for (slots, labels) in [(9, 10), (12, 12), (16, 17), (4_000, 4_000)] {
            assert_eq!(shown(slots, labels), Shown::Nowhere, "{slots} {labels}");
        }
    }
}

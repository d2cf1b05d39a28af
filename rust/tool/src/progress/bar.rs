//! A progress bar for many files, shown only on a terminal.

use super::{write, Shown, CLEAR};

const WIDTH: usize = 30;

pub struct Bar {
    shown: bool,
    done: usize,
    total: usize,
}

impl Bar {
    pub fn new(shown: Shown, total: usize) -> Bar {
        let bar = Bar {
            shown: shown == Shown::InPlace,
            done: 0,
            total,
        };
        bar.draw();
        bar
    }

    /// Clears the bar, so that a line can be printed in its place.
    pub fn hide(&self) {
        self.write(CLEAR);
    }

    /// One more is done: draws the bar anew, or leaves it away after the last.
    pub fn step(&mut self) {
        self.done += 1;
        if self.done < self.total {
            self.draw();
        }
    }

    fn draw(&self) {
        let full = WIDTH * self.done / self.total.max(1);
        let bar = format!("{:-<WIDTH$}", "#".repeat(full));
        self.write(&format!("{CLEAR}[{bar}] {} of {}", self.done, self.total));
    }

    fn write(&self, words: &str) {
        if self.shown {
            write(words);
        }
    }
}

//! What is shown on standard error while a person waits, and when.

mod bar;
mod steps;

use crate::args::{Arguments, Choice};
use std::io::{self, IsTerminal, Write};

pub use bar::Bar;
pub use steps::{Steps, Telling};

/// Takes away what stands on the line of a terminal.
const CLEAR: &str = "\r\x1b[K";

pub const PROGRESS: Choice = Choice {
    long: "--progress",
    short: None,
    value: Some("WHEN"),
    help: "tell the steps of a large task: auto, always or never",
};

/// For the help of each command that takes the option.
pub const ABOUT: &str = "\
A bay of sixteen slots takes about a second and a workspace of 14,992,917 words,
which is 120 MB. While a task as large is worked on, one line on standard error
tells which step is taken and, after a second, for how long, if that is a
terminal (auto). With --progress always the steps are told elsewhere too, in a
line each; with never, nowhere.";

/// What is wrong with the option's value, if anything is.
pub fn misfit(arguments: &Arguments) -> Option<&'static str> {
    let misfit = When::given(arguments).is_none();
    misfit.then_some("--progress takes auto, always or never")
}

#[derive(Clone, Copy, PartialEq, Eq, Debug)]
enum When {
    Auto,
    Always,
    Never,
}

impl When {
    // None where the value is none of the three.
    fn given(arguments: &Arguments) -> Option<When> {
        match arguments.value(&PROGRESS).map(|value| value.to_str()) {
            None | Some(Some("auto")) => Some(When::Auto),
            Some(Some("always")) => Some(When::Always),
            Some(Some("never")) => Some(When::Never),
            Some(_) => None,
        }
    }

    fn shown(self, is_terminal: bool) -> Shown {
        match (self, is_terminal) {
            (When::Never, _) | (When::Auto, false) => Shown::Nowhere,
            (When::Always, false) => Shown::InLines,
            (_, true) => Shown::InPlace,
        }
    }
}

/// How progress is shown.
#[derive(Clone, Copy, PartialEq, Eq, Debug)]
pub enum Shown {
    Nowhere,
    /// A line for each step, which stays.
    InLines,
    /// One line of a terminal, which is written over.
    InPlace,
}

impl Shown {
    /// As the command line asks for it.
    pub fn of(arguments: &Arguments) -> Shown {
        let when = When::given(arguments).unwrap_or(When::Auto);
        when.shown(io::stderr().is_terminal())
    }
}

fn write(words: &str) {
    let mut out = io::stderr().lock();
    // A line that cannot be shown is no reason to stop.
    let _ = out.write_all(words.as_bytes()).and_then(|()| out.flush());
}

#[cfg(test)]
mod tests {
    use super::*;
    use crate::args;

    fn arguments(words: &[&str]) -> Arguments {
        let words: Vec<_> = words.iter().map(std::ffi::OsString::from).collect();
        args::read(&words, &[&PROGRESS]).unwrap()
    }

    #[test]
    fn progress_is_shown_on_a_terminal_or_where_it_is_asked_for() {
        let shown = |words: &[&str]| {
            let when = When::given(&arguments(words)).unwrap();
            [true, false].map(|is_terminal| when.shown(is_terminal))
        };
        assert_eq!(shown(&[]), [Shown::InPlace, Shown::Nowhere]);
        assert_eq!(shown(&["--progress=auto"]), shown(&[]));
        let always = [Shown::InPlace, Shown::InLines];
        assert_eq!(shown(&["--progress", "always"]), always);
        assert_eq!(shown(&["--progress=never"]), [Shown::Nowhere; 2]);
    }

    #[test]
    fn other_words_are_a_misfit() {
        for words in ["", "Always", "yes", "auto "] {
            assert!(misfit(&arguments(&["--progress", words])).is_some());
        }
        assert_eq!(misfit(&arguments(&["--progress", "never"])), None);
    }
}

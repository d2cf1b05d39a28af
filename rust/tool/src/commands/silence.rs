//! `silence`: makes a partial file from a task file and marks.

use super::partial::Reading;
use super::{deliver, refuse, Command, OUTPUT};
use crate::args::{Arguments, Choice, JSON};
use crate::fault::Fault;
use crate::files;
use crate::json::Json;
use crate::library;
use crate::output::{complain, Status};
use crate::sizes;
use crate::words::counted;
use std::ffi::OsStr;

const MARKS: Choice = Choice {
    long: "--marks",
    short: None,
    value: Some("MARKS"),
    help: "a 1 for each named variable, a 0 for each silent one",
};

pub const COMMAND: Command = Command {
    name: "silence",
    operands: "TASK",
    count: (1, 1),
    summary: "make a partial file from a task file and marks (needs --marks)",
    about: "\
Reads a task file and makes a partial file of it, for find, check, build and
open with --partial: the same task, with an order that names only the variables
that are marked 1. The marks stand together, one for each variable, as in

    florumeja silence --marks 110 TASK -o ORDER

Without -o it only says how long the partial file would be. What silence makes
of a good task can be refused 7 when it is read: an operator that was idle for
want of a possible value no longer is, as \"unknown\" is always possible. Then
the answer says so. For a bay as plain text write ? and use ask.",
    binary: true,
    options: &[&MARKS, &OUTPUT, &JSON],
    statuses: &["silenced"],
    run,
};

fn run(arguments: &Arguments) -> Status {
    let marks = match read_marks(arguments.value(&MARKS)) {
        Ok(marks) => marks,
        Err(words) => {
            complain(&format!("silence: {words}; try florumeja silence --help"));
            return Status::Refused;
        }
    };
    match silence(arguments, &marks) {
        Ok(()) => Status::Yes,
        Err(fault) => refuse(arguments, &arguments.files[0], &fault),
    }
}

// Only 0s and 1s are marks; anything else could be meant in another way.
fn read_marks(marks: Option<&OsStr>) -> Result<Vec<u8>, String> {
    let marks = marks.ok_or("--marks MARKS is needed")?.to_string_lossy();
    let mark = |character| match character {
        '0' => Ok(0),
        '1' => Ok(1),
        other => Err(format!(
            "--marks takes 0s and 1s with nothing between them, and not {other:?}"
        )),
    };
    marks.chars().map(mark).collect()
}

fn silence(arguments: &Arguments, marks: &[u8]) -> Result<(), Fault> {
    let name = &arguments.files[0];
    let task = files::read(name)?;
    let partial = library::silence(&task, marks).map_err(|fault| told(fault, &task, marks))?;
    give(arguments, marks, &partial)
}

fn give(arguments: &Arguments, marks: &[u8], partial: &[u8]) -> Result<(), Fault> {
    let named = marks.iter().filter(|mark| **mark == 1).count();
    let mut line = format!(
        "silenced {} bytes, names {named} of {} variables",
        partial.len(),
        marks.len()
    );
    let mut fields = vec![
        ("file", Json::text(&arguments.files[0].to_string_lossy())),
        ("answer", Json::text("silenced")),
        ("bytes", Json::number(partial.len())),
        ("named", Json::number(named)),
        ("variables", Json::number(marks.len())),
    ];
    if let Err(fault) = library::build_partial(partial) {
        let note = format!("when it is read it is {}", fault.of_partial().words());
        line.push_str(&format!("; {note}"));
        fields.push(("note", Json::Text(note)));
    }
    deliver(arguments, partial, &line, &Json::Object(fields))
}

// A task that is taken by itself is not at fault: then it is the marks, or the limits of what is built.
fn told(fault: Fault, task: &[u8], marks: &[u8]) -> Fault {
    if Reading::Task.judge(task).is_err() {
        return Reading::Task.told(fault, task);
    }
    let variables = sizes::of_task(task).unwrap_or_default().len();
    match fault {
        Fault::Refused(number) if variables != marks.len() => {
            let (marks, variables) = (counted(marks.len(), "mark"), counted(variables, "variable"));
            Fault::Explained(number, format!("--marks has {marks}, the task {variables}"))
        }
        other => other.of_partial(),
    }
}

#[cfg(test)]
mod tests {
    use super::*;

    #[test]
    fn marks_are_digits_and_nothing_else() {
        let read = |words: &str| read_marks(Some(OsStr::new(words)));
        assert_eq!(read("101").unwrap(), [1, 0, 1]);
        assert_eq!(read("").unwrap(), []);
        for words in ["1,0", "1 0", "12", "-1", "1\u{661}", "yes"] {
            let message = read(words).unwrap_err();
            assert!(message.starts_with("--marks takes 0s and 1s"), "{message}");
        }
        assert_eq!(read_marks(None).unwrap_err(), "--marks MARKS is needed");
    }
}

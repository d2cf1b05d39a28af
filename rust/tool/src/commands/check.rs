//! `check`: asks the proved checker about weights from anyone.

use super::partial::{Reading, LEAN, PARTIAL};
use super::{refuse, tell, Command, Misfit};
use crate::args::{Arguments, Choice, JSON};
use crate::fault::Fault;
use crate::files;
use crate::json::Json;
use crate::library::Verdict;
use crate::notation::Notation;
use crate::output::Status;
use std::ffi::OsString;

const NEW: Choice = Choice {
    long: "--new",
    short: None,
    value: None,
    help: "the weights are a new weight file, which begins with 0",
};

pub const COMMAND: Command = Command {
    name: "check",
    operands: "TASK WEIGHTS",
    count: (2, 2),
    summary: "check a weight file against a task file",
    about: "\
Reads a task file and a weight file and prints the verdict of the checker:
accepted (the weights separate start from goal, so the goal cannot be reached);
rejected ends alike (start and goal have the same parity); or rejected operator
N (the least operator that can change the parity, counted from 0). It is the
line that the library's own checker program prints.
A rejection does not mean that the goal can be reached.

The task is of the old kind or of the new one, by its first number. A weight
file does not say of which kind it is, so --new says it.",
    binary: true,
    options: &[&NEW, &PARTIAL, &LEAN, &JSON],
    statuses: &["accepted", "rejected"],
    run,
};

fn run(arguments: &Arguments) -> Status {
    match check(arguments, &arguments.files[0], &arguments.files[1]) {
        Ok((verdict, line)) => give(arguments, verdict, &line),
        Err((name, fault)) => refuse(arguments, name, &fault),
    }
}

// The verdict, and the line that says it.
fn check<'a>(
    arguments: &Arguments,
    task: &'a OsString,
    weights: &'a OsString,
) -> Result<(Verdict, String), Misfit<'a>> {
    if files::is_standard(task) && files::is_standard(weights) {
        let words = "only one of the two can be standard input";
        return Err((task, Fault::Failure(words.to_string())));
    }
    let reading = Reading::of(arguments);
    let notation = match arguments.has(&NEW) {
        true => Notation::New,
        false => Notation::Old,
    };
    let task_bytes = files::read(task).map_err(|fault| (task.as_os_str(), fault))?;
    let weight_bytes = files::read(weights).map_err(|fault| (weights.as_os_str(), fault))?;
    let verdict = reading.check(&task_bytes, notation, &weight_bytes);
    // The task is judged first, so the weights are at fault exactly where it is taken by itself.
    verdict.map_err(|fault| match reading.judge(&task_bytes) {
        Ok(()) => {
            let fault = reading.told_of_weights(fault, &task_bytes, notation, &weight_bytes);
            (weights.as_os_str(), fault)
        }
        Err(fault) => (task.as_os_str(), fault),
    })
}

fn give(arguments: &Arguments, verdict: Verdict, line: &str) -> Status {
    tell(arguments, line, &json(arguments, verdict, line));
    match verdict {
        Verdict::Accepted => Status::Yes,
        Verdict::EndsAlike | Verdict::Operator(_) => Status::No,
    }
}

fn json(arguments: &Arguments, verdict: Verdict, line: &str) -> Json {
    let name = |index: usize| Json::text(&arguments.files[index].to_string_lossy());
    let mut fields = vec![
        ("file", name(0)),
        ("weights", name(1)),
        ("answer", Json::text(line)),
    ];
    if let Verdict::Operator(number) = verdict {
        fields.push(("operator", Json::number(number as usize)));
    }
    Json::Object(fields)
}

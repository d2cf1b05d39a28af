//! `convert`: writes a task file in the other kind, and the weights beside it.

use super::{refuse, refused, tell, write, Command, Misfit, OUTPUT};
use crate::args::{Arguments, Choice, JSON};
use crate::fault::Fault;
use crate::files;
use crate::json::Json;
use crate::library;
use crate::notation::Notation;
use crate::output::{complain, Status};
use crate::place::Kind;
use std::ffi::OsStr;

const OLD: Choice = Choice {
    long: "--old",
    short: None,
    value: None,
    help: "write the old kind; the task has to be of the new one",
};

const NEW: Choice = Choice {
    long: "--new",
    short: None,
    value: None,
    help: "write the new kind; the task has to be of the old one",
};

const WEIGHTS: Choice = Choice {
    long: "--weights",
    short: None,
    value: Some("FILE"),
    help: "convert this weight file as well (needs --to)",
};

const TO: Choice = Choice {
    long: "--to",
    short: None,
    value: Some("FILE"),
    help: "write the converted weights to FILE",
};

pub const COMMAND: Command = Command {
    name: "convert",
    operands: "TASK",
    count: (1, 1),
    summary: "write a task file in the other kind, and the weights beside it",
    about: "\
Reads a task file of the old kind and writes it in the new kind, or the other way
round, by its first number. An old file has each listed pair as it is. A new one
begins with 0, and has the first pair and then each gap less one, so that long
lists take less room. Both name the same task, and the way back leads to the same
bytes.

    florumeja convert TASK -o CONVERTED
    florumeja convert TASK -o CONVERTED --weights WEIGHTS --to OTHER

With --old or --new the kind that is written is asked for; a task that is of that
kind already is refused. With --weights the weights for the task are converted in
the same direction: they are of the kind that is not written. All files are
written or none. Without -o the task is not written, and it is only said how long
it would be.",
    binary: true,
    options: &[&OUTPUT, &WEIGHTS, &TO, &OLD, &NEW, &JSON],
    statuses: &["converted"],
    run,
};

fn run(arguments: &Arguments) -> Status {
    if let Some(words) = clash(arguments) {
        complain(&format!("convert: {words}; try florumeja convert --help"));
        return Status::Refused;
    }
    match convert(arguments) {
        Ok(()) => Status::Yes,
        Err((name, fault)) => refuse(arguments, name, &fault),
    }
}

// What does not fit together, if anything.
fn clash(arguments: &Arguments) -> Option<&'static str> {
    let is_standard = |choice| arguments.value(choice).is_some_and(files::is_standard);
    if arguments.has(&OLD) && arguments.has(&NEW) {
        return Some("--old and --new cannot both be written");
    }
    if arguments.has(&WEIGHTS) != arguments.has(&TO) {
        return Some("--weights and --to go together");
    }
    if is_standard(&TO) {
        return Some("--to names a file, not standard output");
    }
    let twice = is_standard(&WEIGHTS) && files::is_standard(&arguments.files[0]);
    twice.then_some("only one of TASK and --weights can be standard input")
}

/// A file before and after.
struct Converted<'a> {
    name: &'a OsStr,
    came: Vec<u8>,
    bytes: Vec<u8>,
}

fn convert(arguments: &Arguments) -> Result<(), Misfit<'_>> {
    let task_name = arguments.files[0].as_os_str();
    let of_task = |fault| (task_name, fault);
    let (to, task) = converted_task(arguments, task_name).map_err(of_task)?;
    let weights = match arguments.value(&WEIGHTS) {
        Some(name) => Some(converted_weights(to, &task, name).map_err(|fault| (name, fault))?),
        None => None,
    };
    keep(arguments, &task, weights.as_ref()).map_err(of_task)?;
    let json = json(to, &task, weights.as_ref());
    tell(arguments, &line(to, &task, weights.as_ref()), &json);
    Ok(())
}

// The kind that is asked for, if one is.
fn asked(arguments: &Arguments) -> Option<Notation> {
    match (arguments.has(&OLD), arguments.has(&NEW)) {
        (true, _) => Some(Notation::Old),
        (_, true) => Some(Notation::New),
        _ => None,
    }
}

fn converted_task<'a>(
    arguments: &Arguments,
    name: &'a OsStr,
) -> Result<(Notation, Converted<'a>), Fault> {
    let came = files::read(name)?;
    let asked = asked(arguments);
    // What has no first number is refused whatever is asked of it.
    let found = Notation::of_task(&came).unwrap_or(Notation::Old);
    let to = asked.unwrap_or(found.other());
    let bytes = library::converted(to, &came).map_err(|fault| told(fault, asked, &came))?;
    leads_back(&came, library::converted(to.other(), &bytes))?;
    Ok((to, Converted { name, came, bytes }))
}

// Where no kind is asked for, the task is of the one that is due.
fn told(fault: Fault, asked: Option<Notation>, task: &[u8]) -> Fault {
    let Some(to) = asked else {
        return refused::task(fault, Kind::Task, task);
    };
    let fault = refused::task(fault, Kind::TaskIn(to.other()), task);
    match Notation::of_task(task) == asked {
        true => fault.explained(&format!("the task is of the {} kind already", to.word())),
        false => fault,
    }
}

// The task was taken, so what is refused here is at fault in the weights.
fn converted_weights<'a>(
    to: Notation,
    task: &Converted,
    name: &'a OsStr,
) -> Result<Converted<'a>, Fault> {
    let came = files::read(name)?;
    let kind = Kind::Weights(to.other(), &task.came);
    let bytes = library::converted_weights(to, &task.came, &came)
        .map_err(|fault| refused::weights(fault, kind, &came))?;
    leads_back(
        &came,
        library::converted_weights(to.other(), &task.bytes, &bytes),
    )?;
    Ok(Converted { name, came, bytes })
}

// Whoever converts a file must be able to have it again, byte for byte.
fn leads_back(came: &[u8], back: Result<Vec<u8>, Fault>) -> Result<(), Fault> {
    match back {
        Ok(back) if back == came => Ok(()),
        _ => Err(Fault::Failure(
            "the library's way back does not lead to the same bytes, so nothing is said".into(),
        )),
    }
}

fn keep(arguments: &Arguments, task: &Converted, weights: Option<&Converted>) -> Result<(), Fault> {
    let names = [Some(task), weights].into_iter().flatten();
    let inputs: Vec<_> = names.map(|file| file.name.to_os_string()).collect();
    let beside = arguments.value(&TO).zip(weights);
    let beside: Vec<_> = beside
        .map(|(name, file)| (name, &*file.bytes))
        .into_iter()
        .collect();
    write(arguments, &task.bytes, &beside, &inputs)
}

fn line(to: Notation, task: &Converted, weights: Option<&Converted>) -> String {
    let part = |noun, file: &Converted| {
        let (before, after) = (file.came.len(), file.bytes.len());
        format!("{noun} from {before} to {after} bytes")
    };
    let weights = weights.map(|weights| format!(", {}", part("weights", weights)));
    let task = part("task", task);
    let weights = weights.unwrap_or_default();
    format!("converted to the {} kind: {task}{weights}", to.word())
}

fn json(to: Notation, task: &Converted, weights: Option<&Converted>) -> Json {
    let mut fields = vec![
        ("file", Json::text(&task.name.to_string_lossy())),
        ("answer", Json::text("converted")),
        ("kind", Json::text(to.word())),
        ("bytes", Json::number(task.bytes.len())),
    ];
    if let Some(weights) = weights {
        fields.push(("weights", Json::text(&weights.name.to_string_lossy())));
        fields.push(("weight_bytes", Json::number(weights.bytes.len())));
    }
    Json::Object(fields)
}

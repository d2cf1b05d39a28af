//! `build`: makes a task file from a bay file or a partial file.

use super::partial::{Reading, LEAN, PARTIAL};
use super::{deliver, refuse, Command, OUTPUT};
use crate::args::{Arguments, JSON};
use crate::fault::Fault;
use crate::files;
use crate::json::Json;
use crate::library;
use crate::output::Status;
use crate::place::{self, Kind};

pub const COMMAND: Command = Command {
    name: "build",
    operands: "BAY",
    count: (1, 1),
    summary: "build a task file from a bay file or a partial file",
    about: "\
Reads a bay file (the binary one: rows, columns, start labels, goal labels) and
builds its task; or, with --partial, a partial file. Pallets of one label are
alike. Without -o it only says how long the task file would be. For a bay as
plain text use ask --task.",
    binary: true,
    options: &[&OUTPUT, &PARTIAL, &LEAN, &JSON],
    statuses: &["built"],
    run,
};

fn run(arguments: &Arguments) -> Status {
    match build(arguments) {
        Ok(()) => Status::Yes,
        Err(fault) => refuse(arguments, &arguments.files[0], &fault),
    }
}

fn build(arguments: &Arguments) -> Result<(), Fault> {
    let name = &arguments.files[0];
    let file = files::read(name)?;
    let task = match Reading::of(arguments) {
        Reading::Task => library::build(&file)
            .map_err(|fault| place::told(fault, Kind::Bay, &file).about(&file))?,
        partial => partial.task(&file)?,
    };
    let line = format!("built {} bytes", task.len());
    let json = Json::Object(vec![
        ("file", Json::text(&name.to_string_lossy())),
        ("answer", Json::text("built")),
        ("bytes", Json::number(task.len())),
    ]);
    deliver(arguments, &task, &line, &json)
}

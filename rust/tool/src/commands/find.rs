//! `find`: looks for weights that separate the ends of a task.

use super::partial::{Reading, LEAN, PARTIAL};
use super::{deliver, refuse, tell, Command, OUTPUT};
use crate::answer;
use crate::args::{Arguments, JSON};
use crate::fault::Fault;
use crate::files;
use crate::json::Json;
use crate::library::{self, Weights};
use crate::output::Status;
use crate::progress::{Telling, PROGRESS};

pub const COMMAND: Command = Command {
    name: "find",
    operands: "TASK",
    count: (1, 1),
    summary: "find the weights that separate start from goal in a task file",
    about: "\
Reads a task file and prints one line: separated, the count and the features of
the least separating set, increasing; or none. Separated means that the goal
cannot be reached. None does not mean that it can.

With -o the weights are also written as a weight file, for check. For a bay as
plain text use ask.",
    binary: true,
    options: &[&OUTPUT, &PARTIAL, &LEAN, &PROGRESS, &JSON],
    statuses: &["separated", "none"],
    run,
};

fn run(arguments: &Arguments) -> Status {
    match find(arguments).and_then(|found| give(arguments, found)) {
        Ok(status) => status,
        Err(fault) => refuse(arguments, &arguments.files[0], &fault),
    }
}

fn find(arguments: &Arguments) -> Result<Option<Weights>, Fault> {
    let reading = Reading::of(arguments);
    let file = files::read(&arguments.files[0])?;
    let telling = Telling::of(arguments);
    let mut steps = reading.steps(&telling, &file, 1);
    let workspace = reading.open(&file, &mut steps)?;
    steps.take("finding weights", || library::find(&workspace))
}

fn give(arguments: &Arguments, found: Option<Weights>) -> Result<Status, Fault> {
    let Some(Weights { features, file }) = found else {
        // There is no weight file to write.
        tell(
            arguments,
            "none",
            &json(arguments, "none", vec![answer::note()]),
        );
        return Ok(Status::No);
    };
    let numbers: Vec<String> = features.iter().map(usize::to_string).collect();
    let line = format!("separated {} {}", features.len(), numbers.join(" "));
    let fields = vec![
        ("count", Json::number(features.len())),
        ("weights", Json::numbers(&features)),
    ];
    let json = json(arguments, "separated", fields);
    deliver(arguments, &file, &line, &json)?;
    Ok(Status::Yes)
}

fn json(arguments: &Arguments, answer: &str, more: Vec<(&'static str, Json)>) -> Json {
    let mut fields = vec![
        ("file", Json::text(&arguments.files[0].to_string_lossy())),
        ("answer", Json::text(answer)),
    ];
    fields.extend(more);
    Json::Object(fields)
}

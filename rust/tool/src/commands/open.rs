//! `open`: opens a task file as a workspace.

use super::partial::{Reading, LEAN, PARTIAL};
use super::{deliver, refuse, Command, OUTPUT};
use crate::args::{Arguments, JSON};
use crate::fault::Fault;
use crate::files;
use crate::json::Json;
use crate::library::Workspace;
use crate::output::Status;
use crate::progress::{Telling, PROGRESS};
use crate::words::counted;

pub const COMMAND: Command = Command {
    name: "open",
    operands: "TASK",
    count: (1, 1),
    summary: "open a task file as a workspace and say what is in it",
    about: "\
Reads a task file, opens it and says how many words the workspace has, and how
many variables, features, listed pairs and conditions (slots that are not empty)
are in it. With -o the workspace is written, each word as eight bytes, the low
byte first.",
    binary: true,
    options: &[&OUTPUT, &PARTIAL, &LEAN, &PROGRESS, &JSON],
    statuses: &["opened"],
    run,
};

fn run(arguments: &Arguments) -> Status {
    match open(arguments) {
        Ok(()) => Status::Yes,
        Err(fault) => refuse(arguments, &arguments.files[0], &fault),
    }
}

fn open(arguments: &Arguments) -> Result<(), Fault> {
    let name = &arguments.files[0];
    let workspace = opened(arguments)?;
    let counts = counts(&workspace);
    let shown = counts.map(|(noun, _, count)| counted(count, noun));
    let line = format!("opened {}", shown.join(", "));
    let mut fields = vec![
        ("file", Json::text(&name.to_string_lossy())),
        ("answer", Json::text("opened")),
    ];
    fields.extend(counts.map(|(_, name, count)| (name, Json::number(count))));
    // A workspace is large, so its bytes are made only if they are asked for.
    let kept = arguments.value(&OUTPUT).map(|_| bytes(&workspace));
    let json = Json::Object(fields);
    deliver(arguments, &kept.unwrap_or_default(), &line, &json)
}

fn opened(arguments: &Arguments) -> Result<Workspace, Fault> {
    let reading = Reading::of(arguments);
    let file = files::read(&arguments.files[0])?;
    let telling = Telling::of(arguments);
    let mut steps = reading.steps(&telling, &file, 0);
    reading.open(&file, &mut steps)
}

// Each with its noun, for people, and its name, for programs.
fn counts(workspace: &Workspace) -> [(&'static str, &'static str, usize); 5] {
    let features = workspace.features();
    [
        ("word", "words", workspace.words().len()),
        ("variable", "variables", features.sizes().len()),
        ("feature", "features", features.count()),
        ("pair", "pairs", workspace.pair_count()),
        ("condition", "conditions", workspace.condition_count()),
    ]
}

fn bytes(workspace: &Workspace) -> Vec<u8> {
    let words = workspace.words().iter();
    words.flat_map(|word| word.to_le_bytes()).collect()
}

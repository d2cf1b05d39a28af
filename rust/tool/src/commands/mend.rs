//! `mend`: drops what cannot stay in the pair list of a task file.

use super::partial::Reading;
use super::{deliver, refuse, Command, OUTPUT};
use crate::args::{Arguments, Choice, JSON};
use crate::fault::Fault;
use crate::files;
use crate::json::Json;
use crate::output::{complain, Status};
use crate::pair_list::{self, Cause, Dropped, Mended, Naming, Shape, MOST_STEPS};
use crate::words::counted;
use std::ffi::OsStr;

const BAY: Choice = Choice {
    long: "--bay",
    short: None,
    value: Some("SHAPE"),
    help: "name slots and labels, for a bay of this shape, as in 2x3",
};

pub const COMMAND: Command = Command {
    name: "mend",
    operands: "TASK",
    count: (1, 1),
    summary: "drop the pairs that a task file may not list, and say which and why",
    about: "\
Reads a task file whose list of exclusive pairs may be at fault, so that other
commands refuse it by 6 or 7, and makes the same task with the largest part of
the list that is good. A list is good if the start holds none of its pairs and
no operator breaks one. A good list stays as it is, byte for byte.

    florumeja mend TASK -o MENDED

Says which pairs are dropped, in increasing order, and why: the start holds the
pair, or which operator breaks it. An operator breaks a pair if it can lead to a
state that has both of its values, and no listed pair with a value that it needs
rules that out. So a pair may be broken only once others are gone, and each has
the number of the step at which it went. Of more than 64 dropped pairs only those
of the first 64 steps have a reason. Without -o nothing is written.

A task file does not say that it was built of a bay. With --bay, rows and columns
as in 2x3, variables are named as slots, by row and column from 1, and values as
labels. It is refused if the task cannot be such a bay's.",
    binary: true,
    options: &[&BAY, &OUTPUT, &JSON],
    statuses: &["mended, or good as it was"],
    run,
};

fn run(arguments: &Arguments) -> Status {
    let shape = match read_shape(arguments.value(&BAY)) {
        Ok(shape) => shape,
        Err(words) => {
            complain(&format!("mend: {words}; try florumeja mend --help"));
            return Status::Refused;
        }
    };
    match mend(arguments, shape) {
        Ok(()) => Status::Yes,
        Err(fault) => refuse(arguments, &arguments.files[0], &fault),
    }
}

fn read_shape(given: Option<&OsStr>) -> Result<Option<Shape>, &'static str> {
    let Some(words) = given else {
        return Ok(None);
    };
    let shape = Shape::read(&words.to_string_lossy());
    shape
        .map(Some)
        .ok_or("--bay takes rows and columns as in 2x3, of 2 to 16 slots in all")
}

fn mend(arguments: &Arguments, shape: Option<Shape>) -> Result<(), Fault> {
    let name = &arguments.files[0];
    let task = files::read(name)?;
    let mended = pair_list::mend(&task).map_err(|fault| Reading::Task.told(fault, &task))?;
    let naming = Naming::new(shape, &mended.sizes)?;
    let json = json(&name.to_string_lossy(), &mended, &naming);
    deliver(arguments, &mended.file, &words(&mended, &naming), &json)
}

fn words(mended: &Mended, naming: &Naming) -> String {
    let (bytes, kept) = (mended.file.len(), mended.kept());
    let listed = counted(mended.listed, "pair");
    let line = format!("mended {bytes} bytes, keeps {kept} of {listed}");
    if mended.dropped.is_empty() {
        return format!("{line}: the list is good as it is");
    }
    let rows = mended.dropped.iter().map(|dropped| row(dropped, naming));
    let parts = [format!("{line}\nDropped, with {}:", naming.counted())].into_iter();
    let parts: Vec<String> = parts.chain(rows).chain(notes(mended)).collect();
    parts.join("\n")
}

fn row(dropped: &Dropped, naming: &Naming) -> String {
    let pair = dropped.pair.words(naming);
    match &dropped.why {
        Some((step, cause)) => format!("  {pair}\n    step {step}: {}", cause.words(naming)),
        None => format!("  {pair}\n    after step {MOST_STEPS}"),
    }
}

// What a person has to know to read the reasons.
fn notes(mended: &Mended) -> Vec<String> {
    let mut notes = Vec::new();
    let mut causes = mended.dropped.iter().filter_map(|one| one.why.as_ref());
    if causes.any(|(_, cause)| *cause != Cause::Start) {
        notes.push(
            "An operator breaks a pair if it can lead to a state that has both, and no listed pair \
             with a value that it needs rules that out. So a pair may be broken only once those of \
             earlier steps are gone."
                .to_string(),
        );
    }
    let unexplained = mended.dropped.len().saturating_sub(MOST_STEPS);
    if unexplained > 0 {
        let pairs = counted(unexplained, "pair");
        notes.push(format!(
            "Reasons were sought for the first {MOST_STEPS} steps only; {pairs} went after these."
        ));
    }
    notes
}

fn json(name: &str, mended: &Mended, naming: &Naming) -> Json {
    let dropped = mended.dropped.iter();
    let dropped = dropped.map(|dropped| item(dropped, naming)).collect();
    Json::Object(vec![
        ("file", Json::text(name)),
        ("answer", Json::text("mended")),
        ("bytes", Json::number(mended.file.len())),
        ("listed", Json::number(mended.listed)),
        ("kept", Json::number(mended.kept())),
        ("dropped", Json::List(dropped)),
    ])
}

fn item(dropped: &Dropped, naming: &Naming) -> Json {
    let mut fields = dropped.pair.fields(naming);
    match &dropped.why {
        Some((step, cause)) => {
            fields.extend(cause.fields(naming));
            fields.push(("step", Json::number(*step)));
        }
        None => fields.push(("reason", Json::Null)),
    }
    Json::Object(fields)
}

//! `report`: a page that shows the proof to the person who was told "impossible".

use super::{deliver, refuse, Command, OUTPUT};
use crate::answer;
use crate::args::{Arguments, JSON};
use crate::fault::Fault;
use crate::output::{complain, Status};
use crate::progress::{Telling, PROGRESS};
use crate::question;
use crate::report;
use crate::words::shown;

pub const COMMAND: Command = Command {
    name: "report",
    operands: "FILE",
    count: (1, 1),
    summary: "write a page that shows the proof, for people (needs -o)",
    about: "\
Asks about one bay, as ask does, and writes one HTML page: pictures of both
bays, the features that the weights list, which of them are true at the start
and at the goal, the two counts, and why no move can change odd to even. The
page needs nothing else, can be sent and printed, and can be checked by hand on
a small bay. Slots have letters there, or numbers where pallets have letters.
Slots that the order does not name have a question mark; where the ways to fill
them were asked one by one, each stands there with its weights. The page carries
the version, the date (that of SOURCE_DATE_EPOCH, if it is set) and the digests
of the task and of the weights. It needs -o, as in

    florumeja report FILE -o page.html",
    binary: false,
    options: &[&OUTPUT, &PROGRESS, &JSON],
    statuses: &["IMPOSSIBLE: the order cannot be done", "no parity proof"],
    run,
};

fn run(arguments: &Arguments) -> Status {
    if !arguments.has(&OUTPUT) {
        complain("report: -o FILE is needed; try florumeja report --help");
        return Status::Refused;
    }
    match write(arguments) {
        Ok(status) => status,
        Err(fault) => refuse(arguments, &arguments.files[0], &fault),
    }
}

fn write(arguments: &Arguments) -> Result<Status, Fault> {
    let name = &arguments.files[0];
    let answered = question::ask(name, &Telling::of(arguments))?;
    let page = report::page(&shown(name), &answered)?;
    let line = format!("{}: {}", shown(name), answer::line(&answered));
    let json = answer::json(&name.to_string_lossy(), &answered);
    deliver(arguments, page.as_bytes(), &line, &json)?;
    Ok(answered.status())
}

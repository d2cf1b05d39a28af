//! The table of commands. A further command is one file here and one entry in `COMMANDS`.

mod ask;
mod build;
mod check;
mod convert;
mod find;
mod mend;
mod open;
pub mod partial;
mod refused;
mod report;
mod silence;

use crate::args::{Arguments, Choice, JSON};
use crate::fault::Fault;
use crate::files;
use crate::json::Json;
use crate::keeping;
use crate::output::{complain, say, say_bytes, Status};
use crate::progress;
use crate::words::shown;
use partial::{LEAN, PARTIAL};
use std::ffi::{OsStr, OsString};

pub struct Command {
    pub name: &'static str,
    /// The files that it takes, as the usage line shows them.
    pub operands: &'static str,
    /// The least and the most files that it takes.
    pub count: (usize, usize),
    pub summary: &'static str,
    pub about: &'static str,
    /// Whether it reads binary files, in which a refusal has a place.
    pub binary: bool,
    pub options: &'static [&'static Choice],
    /// What exit statuses 0 and 1 mean; 2 always means refused or an error.
    pub statuses: &'static [&'static str],
    pub run: fn(&Arguments) -> Status,
}

pub const COMMANDS: &[Command] = &[
    ask::COMMAND,
    report::COMMAND,
    find::COMMAND,
    check::COMMAND,
    build::COMMAND,
    silence::COMMAND,
    mend::COMMAND,
    convert::COMMAND,
    open::COMMAND,
];

/// The option of the commands that write one file.
pub const OUTPUT: Choice = Choice {
    long: "--output",
    short: Some("-o"),
    value: Some("FILE"),
    help: "write the result to FILE (- for standard output)",
};

/// A fault, with the name of the file that has it.
type Misfit<'a> = (&'a OsStr, Fault);

/// What does not fit on a command line, if anything.
pub fn clash(arguments: &Arguments) -> Option<&'static str> {
    let taken = arguments.value(&OUTPUT).is_some_and(files::is_standard);
    if taken && arguments.has(&JSON) {
        return Some("--json and -o - both need standard output");
    }
    if arguments.has(&LEAN) && !arguments.has(&PARTIAL) {
        return Some("--lean goes with --partial");
    }
    progress::misfit(arguments)
}

/// Writes a result where the command line asks for it, and says what it is.
fn deliver(arguments: &Arguments, bytes: &[u8], line: &str, json: &Json) -> Result<(), Fault> {
    write(arguments, bytes, &[], &arguments.files)?;
    tell(arguments, line, json);
    Ok(())
}

/// Writes a result where the command line asks for it, and other files beside it: all of them or none.
fn write(
    arguments: &Arguments,
    bytes: &[u8],
    beside: &[(&OsStr, &[u8])],
    inputs: &[OsString],
) -> Result<(), Fault> {
    let output = arguments.value(&OUTPUT);
    let file = output.filter(|name| !files::is_standard(name));
    let kept = file.map(|name| (name, bytes)).into_iter();
    let kept: Vec<_> = kept.chain(beside.iter().copied()).collect();
    keeping::keep(&kept, inputs)?;
    if output.is_some_and(files::is_standard) {
        say_bytes(bytes);
    }
    Ok(())
}

/// Says an answer, to a person or to a program.
fn tell(arguments: &Arguments, line: &str, json: &Json) {
    // A result that is written to standard output has it to itself.
    if arguments.value(&OUTPUT).is_some_and(files::is_standard) {
        complain(line);
    } else if arguments.has(&JSON) {
        say_json(json);
    } else {
        say(&format!("{line}\n"));
    }
}

/// Says why there is no answer, to a person or to a program.
fn refuse(arguments: &Arguments, name: &OsStr, fault: &Fault) -> Status {
    if arguments.has(&JSON) {
        say_json(&fault.json(&name.to_string_lossy()));
    } else {
        complain(&fault.message(&shown(name)));
    }
    Status::Refused
}

fn say_json(json: &Json) {
    say(&format!("{json}\n"));
}

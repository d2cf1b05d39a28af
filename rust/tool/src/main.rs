//! florumeja: asks the proved library whether the order for a bay is impossible.

mod answer;
mod args;
mod bay;
mod bay_text;
mod characters;
mod commands;
mod date;
mod digest;
mod fault;
mod features;
mod files;
mod help;
mod json;
mod keeping;
mod library;
mod notation;
mod numbers;
mod output;
mod pair_list;
mod picture;
mod place;
mod progress;
mod question;
mod report;
mod sizes;
mod words;

use commands::{Command, COMMANDS};
use output::{complain, say, Status};
use std::env;
use std::ffi::OsString;
use std::process::ExitCode;

/// The only version number of the tool and the library.
const VERSION: &str = env!("CARGO_PKG_VERSION");

fn main() -> ExitCode {
    let words: Vec<OsString> = env::args_os().skip(1).collect();
    if output::was_closed() {
        complain("standard output is closed, so no answer could be seen");
        return Status::Refused.into();
    }
    start(&words).into()
}

fn start(words: &[OsString]) -> Status {
    let Some((first, rest)) = words.split_first() else {
        complain(&format!("a command is needed\n\n{}", help::tool()));
        return Status::Refused;
    };
    if first == "--help" || first == "-h" || first == "help" {
        return show_help(rest);
    }
    if first == "--version" {
        say(&format!("florumeja {VERSION}\n"));
        return Status::Yes;
    }
    match command_named(first) {
        Some(command) => run(command, rest),
        None => unknown_command(first),
    }
}

fn command_named(name: &OsString) -> Option<&'static Command> {
    COMMANDS.iter().find(|command| name == command.name)
}

fn unknown_command(name: &OsString) -> Status {
    let name = words::shown(name);
    complain(&format!("unknown command {name}; try florumeja --help"));
    Status::Refused
}

fn show_help(rest: &[OsString]) -> Status {
    let Some(name) = rest.first() else {
        say(&help::tool());
        return Status::Yes;
    };
    match command_named(name) {
        Some(command) => say(&help::command(command)),
        None => return unknown_command(name),
    }
    Status::Yes
}

fn run(command: &Command, words: &[OsString]) -> Status {
    let choices: Vec<&'static args::Choice> = command
        .options
        .iter()
        .copied()
        .chain([&args::HELP])
        .collect();
    let arguments = match args::read(words, &choices) {
        Ok(arguments) => arguments,
        Err(message) => return misused(command, &message),
    };
    if arguments.has(&args::HELP) {
        say(&help::command(command));
        return Status::Yes;
    }
    let (least, most) = command.count;
    if arguments.files.len() < least {
        return misused(command, &format!("{} is needed", command.operands));
    }
    if arguments.files.len() > most {
        return misused(command, "too many files");
    }
    if let Some(clash) = commands::clash(&arguments) {
        return misused(command, clash);
    }
    (command.run)(&arguments)
}

fn misused(command: &Command, message: &str) -> Status {
    let name = command.name;
    complain(&format!("{name}: {message}; try florumeja {name} --help"));
    Status::Refused
}

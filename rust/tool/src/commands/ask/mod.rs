//! `ask`: the main job, for one bay or for many.

mod evidence;
mod many;

use super::{refuse, say_json, Command};
use crate::answer;
use crate::args::{Arguments, JSON};
use crate::files;
use crate::output::{complain, say, Status};
use crate::progress::{Telling, PROGRESS};
use crate::question;
use crate::words::shown;
use evidence::{TASK, WEIGHTS};
use std::ffi::OsStr;

pub const COMMAND: Command = Command {
    name: "ask",
    operands: "FILE...",
    count: (1, usize::MAX),
    summary: "say whether the order for a bay is impossible",
    about: "\
Reads a bay as plain text: rows of labels as it stands, a blank line, rows of
labels as it is wanted. Labels are numbers with blanks between them; 0 or . is
the gap; # begins a comment. What could be read in two ways is refused, with
its line and column. A swapped pair of pallets, for example:

    1 2
    3 .

    2 1
    3 .

Pallets of one label are alike: a label may stand more than once, equally often
in both bays, and it does not matter which of these pallets is where. Labels may
be letters as well, one letter each. In the files they are 1, 2 and so on, in the
order in which they first stand in the bay. Apples and pears in one row:

    A A P .

    P A A .

Draws both bays and says one of two things. IMPOSSIBLE: no sequence of moves
leads from the one to the other, and a checker that is proved correct accepted
the proof. NO PARITY PROOF: no such proof exists. This does not mean that the
order can be done.

In the bay as it is wanted a ? is a slot that the order does not name: anything
that is left will do there. Then IMPOSSIBLE speaks of every way to fill the slots
with ?. Where there is no proof for all ways at once, and there are 24 ways or
fewer, each is asked by itself, and the order is IMPOSSIBLE if each of them is;
--weights and --task then keep FILE.1, FILE.2 and so on, one for each way.

A bay has 2 to 16 slots, at most 9 of them in a row or a column. An order for 16
slots names each of them. One is examples/swapped-4-by-4.txt: the fifteen puzzle
with 14 and 15 exchanged.

Take care in scripts: exit status 0 means IMPOSSIBLE, not that the order can be
done. What follows florumeja ask FILE && is done for impossible orders only.

FILE may be - for standard input, and a folder stands for the files in it, and
in folders inside it, that end in .txt. For many files there is one line each
and a summary, and the exit status is the highest that one of them gives.",
    binary: false,
    options: &[&WEIGHTS, &TASK, &PROGRESS, &JSON],
    statuses: &["IMPOSSIBLE: the order cannot be done", "no parity proof"],
    run,
};

fn run(arguments: &Arguments) -> Status {
    match arguments.files.as_slice() {
        [name] if !files::is_folder(name) => one(arguments, name),
        _ if arguments.has(&WEIGHTS) || arguments.has(&TASK) => {
            complain("ask: --weights and --task go with one bay; try florumeja ask --help");
            Status::Refused
        }
        _ => many::ask(arguments),
    }
}

fn one(arguments: &Arguments, name: &OsStr) -> Status {
    let telling = Telling::of(arguments);
    let outcome = question::ask(name, &telling).and_then(|answered| {
        let kept = evidence::keep(arguments, &answered)?;
        Ok((answered, kept))
    });
    match outcome {
        Ok((answered, kept)) => {
            if arguments.has(&JSON) {
                say_json(&answer::json(&name.to_string_lossy(), &answered));
            } else {
                say(&format!("{}{kept}", answer::full(&shown(name), &answered)));
            }
            answered.status()
        }
        Err(fault) => refuse(arguments, name, &fault),
    }
}

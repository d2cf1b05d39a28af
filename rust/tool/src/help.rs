//! The help texts, made from the table of commands.

use crate::args::{Choice, HELP};
use crate::commands::partial::{self, PARTIAL};
use crate::commands::{Command, COMMANDS};
use crate::place;
use crate::progress::{self, PROGRESS};

/// The help of the tool as a whole.
pub fn tool() -> String {
    let names = COMMANDS.iter().map(|c| (usage(c), c.summary));
    format!(
        "florumeja: asks whether the order for a bay of pallets is impossible\n\
         \n\
         Usage: florumeja COMMAND [OPTIONS] FILE...\n\
         \n\
         Commands:\n{}\
         \n\
         florumeja COMMAND --help tells more. A FILE of - is standard input; after -- every\n\
         word is a FILE, whatever it begins with.\n\
         florumeja --version shows the version. In the folder of the sources ./florumeja install\n\
         PREFIX installs the tool and the library.\n\
         \n\
         A task file is of the old kind, or of the new one, which begins with 0 and takes\n\
         fewer bytes for a long list of pairs. Each command that reads a TASK takes either, by its\n\
         first number; convert makes the one of the other.\n\
         \n\
         Exit status: 0 IMPOSSIBLE (or separated, accepted, opened, built, silenced, mended,\n\
         converted), 1 no proof (or none, rejected), 2 refused or an error. In scripts take\n\
         care that 0 means IMPOSSIBLE.\n",
        table(names.collect())
    )
}

/// The help of one command.
pub fn command(command: &Command) -> String {
    let options = command.options.iter().copied().chain([&HELP]);
    let options = options.map(|choice| (choice.shown(), choice.help));
    let mut statuses: Vec<(String, &str)> = Vec::new();
    for (number, meaning) in command.statuses.iter().enumerate() {
        statuses.push((number.to_string(), meaning));
    }
    statuses.push(("2".to_string(), "refused, or an error"));
    format!(
        "Usage: florumeja {} {}\n\n{}\n\nOptions:\n{}\nExit status:\n{}",
        command.name,
        command.operands,
        about(command),
        table(options.collect()),
        table(statuses)
    )
}

fn about(command: &Command) -> String {
    let takes = |option: &Choice| {
        let mut options = command.options.iter();
        options.any(|choice| choice.long == option.long)
    };
    let parts = [
        Some(command.about),
        takes(&PARTIAL).then_some(partial::ABOUT),
        command.binary.then_some(place::ABOUT),
        takes(&PROGRESS).then_some(progress::ABOUT),
    ];
    let parts: Vec<&str> = parts.into_iter().flatten().collect();
    parts.join("\n\n")
}

fn usage(command: &Command) -> String {
    format!("{} {}", command.name, command.operands)
}

fn table(rows: Vec<(String, &str)>) -> String {
    let width = rows.iter().map(|(name, _)| name.len()).max().unwrap_or(0);
    let line = |(name, words): (String, &str)| format!("  {name:width$}  {words}\n");
    rows.into_iter().map(line).collect()
}

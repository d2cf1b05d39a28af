//! Reads the words of a command line against the options that a command takes.

use std::ffi::{OsStr, OsString};
use std::os::unix::ffi::OsStrExt;

/// One option of a command.
pub struct Choice {
    pub long: &'static str,
    pub short: Option<&'static str>,
    /// What the option's value is called in the help, if it takes one.
    pub value: Option<&'static str>,
    pub help: &'static str,
}

/// Every command takes this one.
pub const HELP: Choice = Choice {
    long: "--help",
    short: Some("-h"),
    value: None,
    help: "show this help",
};

/// For commands that answer programs as well as people.
pub const JSON: Choice = Choice {
    long: "--json",
    short: None,
    value: None,
    help: "answer in JSON, for programs",
};

impl Choice {
    fn is(&self, word: &OsStr) -> bool {
        word == self.long || self.short.is_some_and(|short| word == short)
    }

    /// The option as a line of help shows it.
    pub fn shown(&self) -> String {
        let mut words = self.long.to_string();
        if let Some(short) = self.short {
            words = format!("{short}, {words}");
        }
        match self.value {
            Some(value) => format!("{words} {value}"),
            None => words,
        }
    }
}

/// What a person gave a command.
pub struct Arguments {
    /// Everything that is no option, in order.
    pub files: Vec<OsString>,
    given: Vec<(&'static str, OsString)>,
}

impl Arguments {
    pub fn has(&self, choice: &Choice) -> bool {
        self.value(choice).is_some()
    }

    pub fn value(&self, choice: &Choice) -> Option<&OsStr> {
        let found = self.given.iter().find(|(long, _)| *long == choice.long);
        found.map(|(_, value)| value.as_os_str())
    }
}

/// Parts options from files; the message says what does not fit.
pub fn read(words: &[OsString], choices: &[&'static Choice]) -> Result<Arguments, String> {
    let mut arguments = Arguments {
        files: Vec::new(),
        given: Vec::new(),
    };
    let mut words = words.iter();
    while let Some(word) = words.next() {
        if word == "--" {
            arguments.files.extend(words.by_ref().cloned());
        } else if word == "-" || !word.as_bytes().starts_with(b"-") {
            arguments.files.push(word.clone());
        } else {
            let (name, attached) = split(word);
            let shown = name.to_string_lossy();
            let choice = choices.iter().find(|choice| choice.is(name));
            let choice = choice.ok_or_else(|| format!("unknown option {shown}"))?;
            let value = value(choice, attached, &mut words)?;
            if arguments.has(choice) {
                return Err(format!("{} is given twice", choice.long));
            }
            arguments.given.push((choice.long, value));
        }
    }
    Ok(arguments)
}

fn value<'a>(
    choice: &Choice,
    attached: Option<&OsStr>,
    words: &mut impl Iterator<Item = &'a OsString>,
) -> Result<OsString, String> {
    match (choice.value, attached) {
        (None, None) => Ok(OsString::new()),
        (None, Some(_)) => Err(format!("{} takes no value", choice.long)),
        (Some(_), Some(value)) => Ok(value.to_os_string()),
        (Some(name), None) => words
            .next()
            .cloned()
            .ok_or_else(|| format!("{} needs a {name}", choice.long)),
    }
}

// Parts --weights=FILE at its first equals sign.
fn split(word: &OsStr) -> (&OsStr, Option<&OsStr>) {
    let bytes = word.as_bytes();
    let equals = bytes.iter().position(|&byte| byte == b'=');
    match equals {
        Some(at) if bytes.starts_with(b"--") => (
            OsStr::from_bytes(&bytes[..at]),
            Some(OsStr::from_bytes(&bytes[at + 1..])),
        ),
        _ => (word, None),
    }
}

#[cfg(test)]
mod tests {
    use super::*;

    const WEIGHTS: Choice = Choice {
        long: "--weights",
        short: Some("-w"),
        value: Some("FILE"),
        help: "",
    };

    fn read_words(words: &[&str]) -> Result<Arguments, String> {
        let words: Vec<OsString> = words.iter().map(OsString::from).collect();
        read(&words, &[&JSON, &WEIGHTS])
    }

    #[test]
    fn options_may_stand_anywhere() {
        for words in [["a", "--json", "-w", "b"], ["-w", "b", "a", "--json"]] {
            let arguments = read_words(&words).unwrap();
            assert_eq!(arguments.files, ["a"]);
            assert!(arguments.has(&JSON));
            assert_eq!(arguments.value(&WEIGHTS), Some(OsStr::new("b")));
        }
        let arguments = read_words(&["--weights=b", "-", "--", "--json"]).unwrap();
        assert_eq!(arguments.files, ["-", "--json"]);
        assert_eq!(arguments.value(&WEIGHTS), Some(OsStr::new("b")));
    }

    #[test]
    fn what_does_not_fit_is_named() {
        let message = |words: &[&str]| read_words(words).err().unwrap();
        assert_eq!(message(&["--jsn"]), "unknown option --jsn");
        assert_eq!(message(&["--json=1"]), "--json takes no value");
        assert_eq!(message(&["--weights"]), "--weights needs a FILE");
        assert_eq!(message(&["--json", "--json"]), "--json is given twice");
    }
}

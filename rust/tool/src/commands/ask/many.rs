//! `ask` for many bays: one line each, a progress bar and a summary.

use crate::answer;
use crate::args::{Arguments, JSON};
use crate::commands::{refuse, say_json};
use crate::fault::Fault;
use crate::files::{self, Named};
use crate::json::Json;
use crate::output::{say, Status};
use crate::progress::{Bar, Shown, Telling};
use crate::question::{self, Answered};
use crate::words::{counted, shown};
use std::collections::BTreeMap;
use std::ffi::{OsStr, OsString};

/// How many bays got which answer.
#[derive(Default)]
struct Summary {
    impossible: usize,
    no_proof: usize,
    refused: usize,
    others: usize,
    /// Whether pallets of one of these bays are alike.
    alike: bool,
    /// How many bays of each shape were answered; one that is read wrongly stands out.
    shapes: BTreeMap<String, usize>,
}

/// Asks about each bay in turn.
pub fn ask(arguments: &Arguments) -> Status {
    let (listed, mut summary) = gather(&arguments.files);
    if let [Named {
        name,
        fault: Some(fault),
    }] = listed.as_slice()
    {
        return refuse(arguments, name, fault);
    }
    let in_json = arguments.has(&JSON);
    let (telling, total) = (Telling::of(arguments), listed.len());
    let mut progress = Bar::new(Shown::of(arguments), total);
    let mut answers = Vec::new();
    for (index, Named { name, fault }) in listed.into_iter().enumerate() {
        let telling = telling.part("bay", index + 1, total);
        let outcome = fault.map_or_else(|| question::ask(&name, &telling), Err);
        summary.add(&outcome);
        if in_json {
            answers.push(item(&name, &outcome));
        } else {
            progress.hide();
            say(&format!("{}: {}\n", shown(&name), short(&outcome)));
        }
        progress.step();
    }
    progress.hide();
    if in_json {
        let answers = Json::List(answers);
        let summary = summary.json();
        let fields = vec![("answers", answers), ("summary", summary)];
        say_json(&Json::Object(fields));
    } else {
        say(&summary.words());
    }
    summary.status()
}

// Puts what each folder holds in the folder's place.
fn gather(given: &[OsString]) -> (Vec<Named>, Summary) {
    let mut listed = Vec::new();
    let mut summary = Summary::default();
    for name in given {
        let name = name.clone();
        if !files::is_folder(&name) {
            listed.push(Named { name, fault: None });
            continue;
        }
        let folder = files::folder(&name);
        summary.others += folder.others;
        if folder.bays.is_empty() {
            let words = "no file in this folder ends in .txt";
            let fault = Some(Fault::Failure(words.to_string()));
            listed.push(Named { name, fault });
        }
        listed.extend(folder.bays);
    }
    (listed, summary)
}

fn short(outcome: &Result<Answered, Fault>) -> String {
    match outcome {
        Ok(answered) => answer::line(answered),
        Err(fault) => format!("{}: {}", fault.heading(), fault.words()),
    }
}

fn item(name: &OsStr, outcome: &Result<Answered, Fault>) -> Json {
    let name = name.to_string_lossy();
    match outcome {
        Ok(answered) => answer::json(&name, answered),
        Err(fault) => fault.json(&name),
    }
}

impl Summary {
    fn add(&mut self, outcome: &Result<Answered, Fault>) {
        match outcome {
            Ok(answered) => self.answered(answered),
            Err(_) => self.refused += 1,
        }
    }

    fn answered(&mut self, answered: &Answered) {
        match answered.status() {
            Status::Yes => self.impossible += 1,
            _ => self.no_proof += 1,
        }
        self.alike |= answered.bay.alike().is_some();
        *self.shapes.entry(answered.bay.shape()).or_default() += 1;
    }

    fn total(&self) -> usize {
        self.impossible + self.no_proof + self.refused
    }

    fn words(&self) -> String {
        let mut words = format!(
            "{} asked: {} impossible, {} without a parity proof, {} refused or in error.\n",
            self.total(),
            self.impossible,
            self.no_proof,
            self.refused
        );
        if self.no_proof > 0 {
            words.push_str("Without a parity proof does not mean that the order can be done.\n");
        }
        if self.alike {
            words.push_str(&format!("{}.\n", answer::ALIKE));
        }
        if !self.shapes.is_empty() {
            let shapes = self
                .shapes
                .iter()
                .map(|(shape, count)| format!("{count} of {shape}"));
            let shapes: Vec<String> = shapes.collect();
            words.push_str(&format!("Shapes: {}.\n", shapes.join(", ")));
        }
        if self.others > 0 {
            let others = counted(self.others, "file");
            words.push_str(&format!("Left out: {others} not ending in .txt.\n"));
        }
        words
    }

    fn json(&self) -> Json {
        let shape = |(shape, &count): (&String, &usize)| {
            Json::Object(vec![
                ("shape", Json::text(shape)),
                ("count", Json::number(count)),
            ])
        };
        Json::Object(vec![
            ("asked", Json::number(self.total())),
            ("impossible", Json::number(self.impossible)),
            ("no_parity_proof", Json::number(self.no_proof)),
            ("refused_or_error", Json::number(self.refused)),
            (
                "shapes",
                Json::List(self.shapes.iter().map(shape).collect()),
            ),
            ("left_out", Json::number(self.others)),
        ])
    }

    fn status(&self) -> Status {
        match (self.refused, self.no_proof) {
            (0, 0) => Status::Yes,
            (0, _) => Status::No,
            _ => Status::Refused,
        }
    }
}

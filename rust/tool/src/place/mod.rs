//! Where a binary file is refused: the bytes there, and what was due in their place.
//!
//! The refusal, the file and the place come from the library. The tool only walks the file up to the
//! place, to name the number that is due, and asks the library which numbers it would take there.

mod kind;
mod pointer;
mod range;
#[cfg(test)]
mod tests;
mod walk;

use crate::fault::Fault;
use crate::json::Json;
use crate::library::Part;
use crate::numbers::{self, Form};
use crate::words::hexadecimal;
pub use kind::Kind;
use range::Taken;
use walk::Due;

/// For the help of each command that reads binary files.
pub const ABOUT: &str = "\
A file that is refused by 1 to 4, 12 or 13 is answered with the place at fault,
in bytes from 0, what stands there, in hexadecimal, and what is due there.";

/// A number at which a file is refused.
#[derive(Debug)]
pub struct Place {
    pub refusal: u32,
    /// Its first byte, from 0.
    first: usize,
    /// Its bytes, as far as they were read.
    bytes: Vec<u8>,
    form: Form,
    expected: Option<Expected>,
    /// The bytes around it, with a mark below.
    pointer: String,
}

/// What was due at a place.
#[derive(Debug)]
struct Expected {
    due: Due,
    /// The numbers that the library takes there, where it bears them out.
    taken: Option<Taken>,
}

/// Says of a file that the library refused at which place it did so.
pub fn told(fault: Fault, kind: Kind, file: &[u8]) -> Fault {
    match fault {
        Fault::Refused(number) => placed(number, kind, file).unwrap_or_else(|failure| failure),
        other => other,
    }
}

fn placed(number: u32, kind: Kind, file: &[u8]) -> Result<Fault, Fault> {
    let part = kind.part(file)?;
    if !bears_out(number, part, file) {
        return Err(Fault::Failure(format!(
            "the library refused the file by {number}, but the bytes that it shows do not bear that \
             out, so nothing is said"
        )));
    }
    Ok(match part {
        Some(part) => Fault::Placed(Box::new(Place::new(number, kind, file, part)), None),
        None => Fault::Refused(number),
    })
}

// Without a place are all numbers but these; and 2, where it was judged behind the last byte.
fn bears_out(number: u32, part: Option<Part>, file: &[u8]) -> bool {
    let Some(part) = part else {
        return !matches!(number, 1 | 3 | 4 | 12 | 13);
    };
    let (form, length) = numbers::read(&file[part.beginning..]);
    let fits = match form {
        Form::Ends => number == 1,
        Form::Padded => number == 12,
        Form::Endless => number == 13,
        Form::Number(_) => matches!(number, 2..=4),
    };
    fits && length == part.length
}

impl Place {
    fn new(refusal: u32, kind: Kind, file: &[u8], part: Part) -> Place {
        let (front, behind) = file.split_at(part.beginning);
        let (form, length) = numbers::read(behind);
        let due = walk::due(kind, file, part.beginning);
        Place {
            refusal,
            first: part.beginning,
            bytes: behind[..length].to_vec(),
            form,
            expected: due.map(|due| Expected::new(kind, front, due, form)),
            pointer: pointer::pointer(front, behind, length),
        }
    }

    /// The place, what stands there and what was due, in words.
    pub fn words(&self) -> String {
        let stands = self.stands();
        match &self.expected {
            Some(Expected { due, taken }) => {
                let taken = taken.map(|taken| format!(", {}", taken.words()));
                let due_there = format!("{} is due{}", due.name, taken.unwrap_or_default());
                format!(
                    "{stands}, where {due_there}; {} counted from 0",
                    due.counted
                )
            }
            None => format!("{stands}; bytes counted from 0"),
        }
    }

    fn stands(&self) -> String {
        let (first, bytes) = (self.first, hexadecimal(&self.bytes));
        let stands = format!("at byte {first} stands {bytes}, which");
        match self.form {
            Form::Ends if self.bytes.is_empty() => format!("the file ends at byte {first}"),
            Form::Ends => format!("the file ends behind {bytes} at byte {first}"),
            Form::Padded => format!("{stands} is not the shortest form"),
            Form::Endless => format!("{stands} says that more follows"),
            Form::Number(number) if self.refusal == 4 => {
                format!("{stands} is {number} and does not increase")
            }
            Form::Number(number) => format!("{stands} is {number}"),
        }
    }

    /// The bytes around the place with a mark below, so that nobody has to count bytes.
    pub fn pointer(&self) -> &str {
        &self.pointer
    }

    /// The members that tell a program of the place.
    pub fn fields(&self) -> Vec<(&'static str, Json)> {
        let mut fields = vec![
            ("place", Json::number(self.first)),
            ("bytes", Json::Text(hexadecimal(&self.bytes))),
        ];
        fields.extend(self.expected.iter().flat_map(Expected::fields));
        fields
    }
}

impl Expected {
    fn new(kind: Kind, front: &[u8], due: Due, form: Form) -> Expected {
        let taken = Taken::behind(front, kind, &due.bounds);
        // What is refused there cannot be taken there as well.
        let fits = |taken: &Taken| !matches!(form, Form::Number(number) if taken.has(number));
        Expected {
            due,
            taken: taken.filter(fits),
        }
    }

    fn fields(&self) -> Vec<(&'static str, Json)> {
        let words = [
            Some(self.due.name.clone()),
            self.taken.map(|taken| taken.words()),
        ];
        let words: Vec<String> = words.into_iter().flatten().collect();
        let mut fields = vec![("expected", Json::Text(words.join(", ")))];
        if let Some((least, most)) = self.taken.and_then(|taken| taken.ends) {
            fields.push(("least", Json::number(least)));
            fields.push(("most", Json::number(most)));
        }
        fields
    }
}

//! Writes files: all of them, or none.

use crate::fault::Fault;
use crate::files;
use crate::words::{reason, shown};
use std::ffi::{OsStr, OsString};
use std::fs::{self, File, OpenOptions};
use std::io::{self, Write};
use std::path::Path;

/// A file that is open for writing, and as it was so far.
struct Target<'a> {
    name: &'a OsStr,
    file: File,
    /// Whether a failure has to take it away again.
    spoilt: bool,
}

/// Writes the files, unless one of them is an input or another of them. A failure leaves none of
/// them behind.
pub fn keep(kept: &[(&OsStr, &[u8])], inputs: &[OsString]) -> Result<(), Fault> {
    for (index, (name, _)) in kept.iter().enumerate() {
        let mut earlier = kept[..index].iter();
        if inputs.iter().any(|input| files::same(input, name))
            || earlier.any(|(other, _)| files::same(other, name))
        {
            let words = format!("{} would be written over", shown(name));
            return Err(Fault::Failure(words));
        }
    }
    let mut targets = Vec::new();
    let outcome = write_all(kept, &mut targets);
    if outcome.is_err() {
        targets.iter().for_each(Target::take_away);
    }
    outcome
}

// All are opened before one is changed, so that most failures come before any harm.
fn write_all<'a>(kept: &[(&'a OsStr, &[u8])], targets: &mut Vec<Target<'a>>) -> Result<(), Fault> {
    for (name, _) in kept {
        targets.push(Target::open(name).map_err(|error| failure(name, &error))?);
    }
    for (target, (name, bytes)) in targets.iter_mut().zip(kept) {
        target.write(bytes).map_err(|error| failure(name, &error))?;
    }
    Ok(())
}

fn failure(name: &OsStr, error: &io::Error) -> Fault {
    Fault::Failure(format!("cannot write {}: {}", shown(name), reason(error)))
}

impl<'a> Target<'a> {
    fn open(name: &'a OsStr) -> io::Result<Target<'a>> {
        let spoilt = !Path::new(name).exists();
        let file = OpenOptions::new()
            .write(true)
            .create(true)
            .truncate(false)
            .open(name)?;
        Ok(Target { name, file, spoilt })
    }

    fn write(&mut self, bytes: &[u8]) -> io::Result<()> {
        // A device or a pipe has no length, and is not taken away either.
        if self.file.metadata()?.is_file() {
            self.spoilt = true;
            self.file.set_len(0)?;
        }
        self.file.write_all(bytes)
    }

    fn take_away(&self) {
        if self.spoilt {
            // The failure itself is what is reported.
            let _ = fs::remove_file(self.name);
        }
    }
}

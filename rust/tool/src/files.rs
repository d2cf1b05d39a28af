//! Reads what the command line names: files, standard input, folders.

use crate::fault::Fault;
use crate::words::reason;
use std::ffi::{OsStr, OsString};
use std::fs::{self, File};
use std::io::{self, Read};
use std::os::unix::fs::MetadataExt;
use std::path::{Path, PathBuf};

/// The name that stands for standard input or output.
const STANDARD: &str = "-";
/// Folders may hold other things too; bays are the files that end so.
const BAY_ENDING: &str = "txt";
/// No binary file of the rules is as long; a file without end must not fill the memory.
const MOST_BYTES: u64 = 1 << 29;
/// The same for the text of a bay, which has sixteen slots at most.
const MOST_TEXT: u64 = 1 << 20;

/// Reads a binary file, or standard input.
pub fn read(name: &OsStr) -> Result<Vec<u8>, Fault> {
    read_up_to(MOST_BYTES, name)
}

/// Reads the text of a bay.
pub fn read_text(name: &OsStr) -> Result<Vec<u8>, Fault> {
    read_up_to(MOST_TEXT, name)
}

fn read_up_to(most: u64, name: &OsStr) -> Result<Vec<u8>, Fault> {
    let read = if is_standard(name) {
        read_from(io::stdin().lock(), most)
    } else {
        File::open(name).and_then(|file| read_from(file, most))
    };
    read.map_err(|error| Fault::Failure(format!("cannot read: {}", reason(&error))))
}

fn read_from(source: impl Read, most: u64) -> io::Result<Vec<u8>> {
    let mut bytes = Vec::new();
    source.take(most + 1).read_to_end(&mut bytes)?;
    if bytes.len() as u64 > most {
        let words = format!("it is longer than {most} bytes, and no file of this kind is");
        return Err(io::Error::other(words));
    }
    Ok(bytes)
}

/// Whether two names lead to one file, be it there already or not.
pub fn same(one: &OsStr, two: &OsStr) -> bool {
    if is_standard(one) || is_standard(two) {
        return false;
    }
    match (fs::metadata(one), fs::metadata(two)) {
        // Two links may be one file.
        (Ok(one), Ok(two)) => (one.dev(), one.ino()) == (two.dev(), two.ino()),
        _ => place(one).is_some() && place(one) == place(two),
    }
}

// A file that is not there yet has the place of its folder.
fn place(name: &OsStr) -> Option<PathBuf> {
    let path = Path::new(name);
    if let Ok(place) = fs::canonicalize(path) {
        return Some(place);
    }
    let folder = match path.parent() {
        Some(folder) if !folder.as_os_str().is_empty() => folder,
        _ => Path::new("."),
    };
    Some(fs::canonicalize(folder).ok()?.join(path.file_name()?))
}

pub fn is_standard(name: &OsStr) -> bool {
    name == STANDARD
}

pub fn is_folder(name: &OsStr) -> bool {
    !is_standard(name) && Path::new(name).is_dir()
}

/// What a folder holds: bays in the order of their names, and how many other files.
#[derive(Default)]
pub struct Folder {
    pub bays: Vec<Named>,
    pub others: usize,
}

/// A file, or why it or the folder of this name cannot be read.
pub struct Named {
    pub name: OsString,
    pub fault: Option<Fault>,
}

/// Lists a folder and the folders inside it. What cannot be read is listed with its fault.
pub fn folder(name: &OsStr) -> Folder {
    let mut folder = Folder::default();
    folder.walk(Path::new(name));
    folder
}

impl Folder {
    fn walk(&mut self, path: &Path) {
        match entries(path) {
            Ok(paths) => paths.iter().for_each(|path| self.take(path)),
            Err(error) => {
                let words = format!("cannot read the folder: {}", reason(&error));
                self.list(path, Some(words));
            }
        }
    }

    fn take(&mut self, path: &Path) {
        // A link to a folder could lead round in a circle.
        if path.is_dir() && !path.is_symlink() {
            self.walk(path);
        } else if is_bay(path) {
            self.list(path, odd_kind(path));
        } else {
            self.others += 1;
        }
    }

    fn list(&mut self, path: &Path, fault: Option<String>) {
        let name = path.as_os_str().to_os_string();
        let fault = fault.map(Fault::Failure);
        self.bays.push(Named { name, fault });
    }
}

fn is_bay(path: &Path) -> bool {
    let ending = path.extension().unwrap_or_default();
    ending.eq_ignore_ascii_case(BAY_ENDING)
}

// Nobody may ever write to a pipe that lies in a folder, so it is not waited for.
fn odd_kind(path: &Path) -> Option<String> {
    let kind = fs::metadata(path).ok()?.file_type();
    let odd = !kind.is_file() && !kind.is_dir();
    odd.then(|| "cannot read: it is a pipe, a socket or a device, not a file".to_string())
}

fn entries(path: &Path) -> io::Result<Vec<PathBuf>> {
    let entries: io::Result<Vec<fs::DirEntry>> = fs::read_dir(path)?.collect();
    let mut paths: Vec<PathBuf> = entries?.iter().map(fs::DirEntry::path).collect();
    paths.retain(|path| !is_hidden(path));
    paths.sort();
    Ok(paths)
}

fn is_hidden(path: &Path) -> bool {
    let name = path.file_name().unwrap_or_default();
    name.as_encoded_bytes().starts_with(b".")
}

#[cfg(test)]
mod tests {
    use super::*;

    // 64 sizes, starts and goals of one byte each, three bytes for each count and each of 32,768 pairs,
    // and as many operators as can be counted, of 64 entries.
    #[test]
    fn no_file_of_the_rules_is_too_long() {
        let operators = 2_097_151 * (1 + 3 * 64);
        let longest = 1 + 3 * 64 + 3 + 3 * 32_768 + 3 + operators;
        assert_eq!(longest, 404_848_646);
        assert!(longest <= MOST_BYTES);
    }
}

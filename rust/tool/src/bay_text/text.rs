//! The text of a bay: its lines, in which every character shows itself, and places in them.

use crate::characters::{is_blank, is_plain, named};
use crate::fault::{Fault, TextFault};

const IN_ROWS: &str =
    "only digits, letters from A to Z, dots, question marks, spaces and tabs before a comment";
const IN_COMMENTS: &str = "only plain letters and signs in a comment";

/// The mark with which some editors begin a text.
const BYTE_ORDER_MARK: &[u8] = b"\xef\xbb\xbf";
/// How a text in UTF-16 begins.
const UTF_16: [&[u8]; 2] = [b"\xff\xfe", b"\xfe\xff"];

/// The text as it was typed, line by line.
pub type Lines = Vec<String>;

/// A place in the text; lines and columns count from 1, columns in characters.
#[derive(Clone, Copy)]
pub struct Place {
    pub line: usize,
    pub column: usize,
}

impl Place {
    /// The end of the last line that has anything on it.
    pub fn end(lines: &Lines) -> Place {
        let used = lines.iter().rposition(|line| !is_empty(line));
        let index = used.unwrap_or(0);
        let column = lines.get(index).map_or(1, |text| end_column(text));
        let line = index + 1;
        Place { line, column }
    }

    pub fn fault(&self, lines: &Lines, expected: &str, found: &str) -> Fault {
        Fault::Text(TextFault {
            line: self.line,
            column: self.column,
            expected: expected.to_string(),
            found: found.to_string(),
            source: lines.get(self.line - 1).cloned().unwrap_or_default(),
            refusal: None,
        })
    }
}

/// Whether a line has nothing on it.
pub fn is_empty(text: &str) -> bool {
    text.chars().all(is_blank)
}

/// The column after the last character that is no blank.
pub fn end_column(text: &str) -> usize {
    text.trim_end_matches(is_blank).chars().count() + 1
}

/// A word as a message shows it: cut and escaped, so that the message stays one readable line.
pub fn quoted(word: &str) -> String {
    let mut shown: String = word.chars().take(20).collect();
    if shown.len() < word.len() {
        shown.push_str("...");
    }
    format!("{shown:?}")
}

/// The lines of a text, in which every character shows itself.
pub fn lines(bytes: &[u8]) -> Result<Lines, Fault> {
    let rest = bytes.strip_prefix(BYTE_ORDER_MARK).unwrap_or(bytes);
    let text = std::str::from_utf8(rest).map_err(|error| not_utf_8(rest, error.valid_up_to()))?;
    // A carriage return goes with the line feed behind it, and nowhere else.
    let text = text.replace("\r\n", "\n");
    let lines: Lines = text.split('\n').map(str::to_string).collect();
    for index in 0..lines.len() {
        judge_characters(&lines, index)?;
    }
    Ok(lines)
}

fn not_utf_8(bytes: &[u8], at: usize) -> Fault {
    let before = String::from_utf8_lossy(&bytes[..at]);
    let lines: Lines = before.split('\n').map(str::to_string).collect();
    let (line, last) = (lines.len(), &lines[lines.len() - 1]);
    let column = last.chars().count() + 1;
    let guess = match UTF_16.iter().any(|mark| bytes.starts_with(mark)) {
        true => "; the text may be UTF-16",
        false => "",
    };
    let found = format!("the byte {:#04x}, which is not UTF-8{guess}", bytes[at]);
    Place { line, column }.fault(&lines, "text in UTF-8", &found)
}

// What is not seen, or is seen elsewhere, would let a person see another bay than the one read.
fn judge_characters(lines: &Lines, index: usize) -> Result<(), Fault> {
    let mut in_comment = false;
    for (before, character) in lines[index].chars().enumerate() {
        in_comment |= character == '#';
        let (fits, expected) = match in_comment {
            true => (is_plain(character), IN_COMMENTS),
            false => (character.is_ascii_graphic(), IN_ROWS),
        };
        if !fits && !is_blank(character) {
            let (line, column) = (index + 1, before + 1);
            return Err(Place { line, column }.fault(lines, expected, &named(character)));
        }
    }
    Ok(())
}

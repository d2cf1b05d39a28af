//! Cuts the text of a bay into labels, each with its place.

use super::comment;
use super::text::{end_column, is_empty, quoted, Lines, Place};
use crate::bay::GAP;
use crate::characters::is_blank;
use crate::fault::Fault;

const LABEL: &str =
    "a label (a number, a letter, . for the gap, or ? for a slot that the order does not name)";
/// What stands in a slot that the order does not name.
const SILENT: &str = "?";
const NO_ZERO: &str = "a label without a zero before it, and blanks between labels";
const WORDS_BEHIND: &str =
    "a comment that begins with a word, as this # could be a part of the bay";
const WORDS_BETWEEN: &str = "words in a comment between two rows, as this could be a row or a wall";
const NO_ROW: &str = "a comment in words, as this could be a row";

pub struct Label {
    pub value: Value,
    pub written: String,
    pub place: Place,
}

/// What a label says by itself.
#[derive(Clone, Copy, PartialEq, Eq)]
pub enum Value {
    /// The order does not name the slot.
    Silent,
    Number(usize),
    Letter(char),
}

/// The labels of one line.
pub struct Row {
    pub labels: Vec<Label>,
    /// Where the line ends.
    pub end: Place,
}

/// Rows that stand together; a blank line parts them, a line that is only a comment does not.
pub fn blocks(lines: &Lines) -> Result<Vec<Vec<Row>>, Fault> {
    let lettered = is_lettered(lines);
    let mut blocks: Vec<Vec<Row>> = Vec::new();
    let mut parted = true;
    // The last row's next comment line that is not in words.
    let mut drawn = None;
    for (index, text) in lines.iter().enumerate() {
        if is_empty(text) {
            parted = true;
            continue;
        }
        let row = row(lines, index, lettered)?;
        if row.labels.is_empty() {
            drawn = drawn.or(comment_line(lines, index, lettered)?);
            continue;
        }
        match blocks.last_mut() {
            Some(block) if !parted => {
                if let Some(index) = drawn {
                    return Err(comment_fault(lines, index, WORDS_BETWEEN));
                }
                block.push(row);
            }
            _ => blocks.push(vec![row]),
        }
        (parted, drawn) = (false, None);
    }
    Ok(blocks)
}

// The index of a line that is only a comment, unless the comment is in words.
fn comment_line(lines: &Lines, index: usize, lettered: bool) -> Result<Option<usize>, Fault> {
    let comment = comment(&lines[index]).unwrap_or_default();
    if comment::reads_as_row(comment, lettered) {
        return Err(comment_fault(lines, index, NO_ROW));
    }
    Ok((!comment::is_in_words(comment, lettered)).then_some(index))
}

fn comment_fault(lines: &Lines, index: usize, expected: &str) -> Fault {
    let comment = comment(&lines[index]).unwrap_or_default();
    let line = index + 1;
    let column = label_text(&lines[index]).chars().count() + 1;
    Place { line, column }.fault(lines, expected, &quoted(comment))
}

fn row(lines: &Lines, index: usize, lettered: bool) -> Result<Row, Fault> {
    let line = index + 1;
    let mut labels = Vec::new();
    for (column, written) in words(&lines[index]) {
        let place = Place { line, column };
        let value = value(&written);
        let value = value.map_err(|due| place.fault(lines, due, &quoted(&written)))?;
        labels.push(Label {
            value,
            written,
            place,
        });
    }
    let behind = comment(&lines[index]).filter(|_| !labels.is_empty());
    if behind.is_some_and(|comment| !comment::is_in_words(comment, lettered)) {
        return Err(comment_fault(lines, index, WORDS_BEHIND));
    }
    let column = end_column(&lines[index]);
    let end = Place { line, column };
    Ok(Row { labels, end })
}

// What stands on a line before any comment.
fn label_text(line: &str) -> &str {
    line.split('#').next().unwrap_or_default()
}

// The comment of a line, from its # on.
fn comment(line: &str) -> Option<&str> {
    line.find('#').map(|at| &line[at..])
}

// The words of a line before any comment, each with the column of its first character.
fn words(line: &str) -> Vec<(usize, String)> {
    let mut words: Vec<(usize, String)> = Vec::new();
    let mut parted = true;
    for (index, character) in label_text(line).chars().enumerate() {
        if is_blank(character) {
            parted = true;
            continue;
        }
        match words.last_mut() {
            Some((_, word)) if !parted => word.push(character),
            _ => words.push((index + 1, character.to_string())),
        }
        parted = false;
    }
    words
}

/// Whether a word is a label, in whatever range, or stands for any; a letter is one where the
/// labels of the bay are letters.
pub fn is_label(word: &str, lettered: bool) -> bool {
    matches!(word, "." | SILENT)
        || word.bytes().all(|byte| byte.is_ascii_digit())
        || (lettered && letter(word).is_some())
}

// Whether letters are typed as labels.
fn is_lettered(lines: &Lines) -> bool {
    let mut words = lines.iter().flat_map(|line| words(line));
    words.any(|(_, word)| letter(&word).is_some())
}

// The letter that a word consists of.
fn letter(word: &str) -> Option<char> {
    let mut characters = word.chars();
    let first = characters.next().filter(char::is_ascii_alphabetic);
    first.filter(|_| characters.next().is_none())
}

// What a label says, or what was expected in its place.
fn value(word: &str) -> Result<Value, &'static str> {
    match word {
        "." => Ok(Value::Number(GAP)),
        SILENT => Ok(Value::Silent),
        _ if !is_label(word, true) => Err(LABEL),
        // 01 could be 0 and 1 as well.
        _ if word.len() > 1 && word.starts_with('0') => Err(NO_ZERO),
        _ => Ok(match letter(word) {
            Some(letter) => Value::Letter(letter),
            // A number too long to count is out of every range, and the builder says so.
            None => Value::Number(word.parse().unwrap_or(usize::MAX)),
        }),
    }
}

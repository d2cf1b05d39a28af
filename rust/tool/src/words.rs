//! Small words that many parts of the tool use.

use crate::characters::is_plain;
use std::ffi::OsStr;
use std::io;

/// A count with its noun, as in "1 feature" and "2 features".
pub fn counted(count: usize, noun: &str) -> String {
    let ending = if count == 1 { "" } else { "s" };
    format!("{count} {noun}{ending}")
}

/// Words one after the other, as in "A", "A and B" and "A, B and C".
pub fn joined(words: &[String]) -> String {
    match words.split_last() {
        Some((last, others)) if !others.is_empty() => format!("{} and {last}", others.join(", ")),
        _ => words.concat(),
    }
}

/// Which one of a list, from 1, as in "1st", "2nd" and "12th".
pub fn ordinal(number: usize) -> String {
    let ending = match (number % 100, number % 10) {
        (11..=13, _) => "th",
        (_, 1) => "st",
        (_, 2) => "nd",
        (_, 3) => "rd",
        _ => "th",
    };
    format!("{number}{ending}")
}

/// Bytes in hexadecimal, as in "02 c1 01".
pub fn hexadecimal(bytes: &[u8]) -> String {
    let digits: Vec<String> = bytes.iter().map(|byte| format!("{byte:02x}")).collect();
    digits.join(" ")
}

/// The word for a count's parity.
pub fn parity(count: usize) -> &'static str {
    if count % 2 == 1 {
        "odd"
    } else {
        "even"
    }
}

/// A file's name as it can be printed: what is not plain could upset a terminal, or hide what is
/// said of the file.
pub fn shown(name: &OsStr) -> String {
    if name == "-" {
        return "standard input".to_string();
    }
    let replaced = |c: char| if is_plain(c) { c } else { '?' };
    name.to_string_lossy().chars().map(replaced).collect()
}

/// Why reading or writing failed; the number of the system's error says nothing to a person.
pub fn reason(error: &io::Error) -> String {
    let words = error.to_string();
    match words.split_once(" (os error") {
        Some((plain, _)) => plain.to_string(),
        None => words,
    }
}

#[cfg(test)]
mod tests {
    use super::*;

    #[test]
    fn ordinals_end_as_they_are_spoken() {
        let numbers = [1, 2, 3, 4, 10, 11, 12, 13, 21, 102, 111, 113, 1003];
        let due = [
            "1st", "2nd", "3rd", "4th", "10th", "11th", "12th", "13th", "21st", "102nd", "111th",
            "113th", "1003rd",
        ];
        assert_eq!(numbers.map(ordinal), due);
    }

    #[test]
    fn each_byte_has_two_digits() {
        assert_eq!(hexadecimal(&[0, 9, 0xc1, 0xff]), "00 09 c1 ff");
        assert_eq!(hexadecimal(&[]), "");
    }
}

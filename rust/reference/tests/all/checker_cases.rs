//! The hand-written cases of the program `cases`: the reference answers each as its line says.

use reference::calls;
use reference::kinds::Kind;
use reference::line::check_line;
use reference::places::{read_both, File};

const CASES: &str = include_str!("../../../../crates/cases/cases.txt");

fn bytes(hex: &str) -> Vec<u8> {
    let digits: Vec<char> = hex.chars().filter(|c| !c.is_whitespace()).collect();
    digits
        .chunks(2)
        .map(|pair| {
            let text: String = pair.iter().collect();
            u8::from_str_radix(&text, 16).expect("two hexadecimal digits")
        })
        .collect()
}

/// The words that the program prints for a result number.
fn words(result: u64) -> String {
    let value = result & 0xffff_ffff;
    match result >> 32 {
        0 => "accepted".to_string(),
        1 => "rejected ends alike".to_string(),
        2 => format!("rejected operator {value}"),
        _ => format!("refused {value}"),
    }
}

/// What the line adds to a number that has a place.
fn place(task: &[u8], weights: &[u8]) -> String {
    let fault = read_both(Kind::Old, task, weights).err();
    match fault.and_then(|fault| fault.part) {
        Some(part) if part.file == File::Task => format!(" at {} in task", part.bytes.start),
        Some(part) => format!(" at {} in weights", part.bytes.start),
        None => String::new(),
    }
}

#[test]
fn every_case_is_answered_as_written() {
    let mut count = 0;
    for line in CASES.lines().filter(|line| !line.starts_with('#')) {
        let parts: Vec<&str> = line.split('|').collect();
        let (task, weights) = (bytes(parts[0]), bytes(parts[1]));
        let answer = words(calls::check(&task, &weights));
        let line = check_line(&task, &weights);
        assert_eq!(line, format!("{answer}{}\n", place(&task, &weights)));
        // The table may leave the place out.
        let told = [answer.as_str(), line.trim_end()];
        assert!(told.contains(&parts[2].trim()), "{}", parts[3].trim());
        count += 1;
    }
    assert!(count > 60, "the table of cases was not read");
}

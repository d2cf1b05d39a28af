//! The numbers of a file, read from the first byte on or written one after the other, and the reasons for a refusal.

use std::ops::Range;

/// Why a call refuses, with the number of the reason.
#[derive(Clone, Copy, Debug, PartialEq, Eq)]
pub enum Refusal {
    Form = 1,
    Limit = 2,
    Range = 3,
    Order = 4,
    LeftOver = 5,
    Held = 6,
    Unclosed = 7,
    Small = 8,
    Malformed = 9,
}

const GROUP: usize = 128;

const MOST_GROUPS: u32 = 3;

#[derive(Clone, Copy)]
pub struct Reader<'a> {
    bytes: &'a [u8],
}

impl<'a> Reader<'a> {
    pub fn new(bytes: &'a [u8]) -> Reader<'a> {
        Reader { bytes }
    }

    /// What is not read yet.
    pub fn rest(&self) -> &'a [u8] {
        self.bytes
    }

    fn byte(&mut self) -> Result<usize, Refusal> {
        let (&byte, rest) = self.bytes.split_first().ok_or(Refusal::Form)?;
        self.bytes = rest;
        Ok(byte as usize)
    }

    /// A number of a few groups, in its shortest form.
    pub fn number(&mut self) -> Result<usize, Refusal> {
        let mut number = 0;
        for place in 0..MOST_GROUPS {
            let byte = self.byte()?;
            number += byte % GROUP * GROUP.pow(place);
            if byte < GROUP {
                let is_shortest = byte != 0 || place == 0;
                return is_shortest.then_some(number).ok_or(Refusal::Form);
            }
        }
        Err(Refusal::Form)
    }

    /// A number that has to be in a range.
    pub fn item(&mut self, range: Range<usize>, refusal: Refusal) -> Result<usize, Refusal> {
        let number = self.number()?;
        if range.contains(&number) {
            Ok(number)
        } else {
            Err(refusal)
        }
    }

    /// A number in a range that has to be `least` or more.
    pub fn rising(&mut self, range: Range<usize>, least: usize) -> Result<usize, Refusal> {
        let number = self.item(range, Refusal::Range)?;
        if number < least {
            return Err(Refusal::Order);
        }
        Ok(number)
    }

    pub fn end(&self) -> Result<(), Refusal> {
        if self.bytes.is_empty() {
            Ok(())
        } else {
            Err(Refusal::LeftOver)
        }
    }
}

/// Writes a list: its count and its numbers.
pub fn write_list(file: &mut Vec<u8>, numbers: &[usize]) {
    write_number(file, numbers.len());
    write_numbers(file, numbers);
}

pub fn write_numbers(file: &mut Vec<u8>, numbers: &[usize]) {
    for &number in numbers {
        write_number(file, number);
    }
}

pub fn write_number(file: &mut Vec<u8>, number: usize) {
    assert!(
        number < GROUP.pow(MOST_GROUPS),
        "{number} has more groups than a number may have"
    );
    let mut left = number;
    while left >= GROUP {
        file.push((GROUP + left % GROUP) as u8);
        left /= GROUP;
    }
    file.push(left as u8);
}

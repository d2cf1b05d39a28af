//! Numbers in files: groups of seven bits, low group first, shortest form, as many bytes as may be.

use crate::kinds::{Kind, MARK};
use crate::limits::{Limits, LARGEST, NOW};
use crate::refusal::Refusal;
use std::ops::Range;

/// Reads numbers one after another.
pub struct Reader<'a> {
    /// By which what is read is judged.
    pub limits: Limits,
    bytes: &'a [u8],
    place: usize,
    /// Where the number being read begins.
    begun: Option<usize>,
}

impl<'a> Reader<'a> {
    pub fn new(bytes: &'a [u8]) -> Self {
        Reader::within(NOW, bytes)
    }

    /// Reads by other limits than today's.
    pub fn within(limits: Limits, bytes: &'a [u8]) -> Self {
        Reader {
            limits,
            bytes,
            place: 0,
            begun: None,
        }
    }

    fn byte(&mut self) -> Result<u8, Refusal> {
        let byte = *self.bytes.get(self.place).ok_or(Refusal::InputEnds)?;
        self.place += 1;
        Ok(byte)
    }

    /// The next number, whatever its size.
    pub fn number(&mut self) -> Result<u64, Refusal> {
        self.begun = Some(self.place);
        let mut number = 0;
        for group in 0..self.limits.groups {
            let byte = self.byte()?;
            number += u64::from(byte % 128) << (7 * group);
            match byte {
                // Without this group it would be the same number.
                0 if group > 0 => return Err(Refusal::NotShortest),
                0..128 => return Ok(number),
                128.. => {}
            }
        }
        Err(Refusal::MoreFollows)
    }

    /// The next number, refused with the given reason outside the range.
    pub fn number_within(
        &mut self,
        range: &Range<usize>,
        outside: Refusal,
    ) -> Result<usize, Refusal> {
        let number = self.number()? as usize;
        if range.contains(&number) {
            Ok(number)
        } else {
            Err(outside)
        }
    }

    /// The kind of the task file that begins here. A badly formed number is no mark.
    pub fn kind(&self) -> Kind {
        let mut ahead = Reader::within(self.limits, &self.bytes[self.place..]);
        if ahead.number() == Ok(MARK as u64) {
            Kind::New
        } else {
            Kind::Old
        }
    }

    /// Reads what stands in front of a file of the kind that is due.
    pub fn front(&mut self, due: Kind) -> Result<(), Refusal> {
        if due == Kind::New && self.number()? != MARK as u64 {
            return Err(Refusal::Range);
        }
        Ok(())
    }

    /// A count and so many features of the range, as files of some kind list them.
    pub fn list(&mut self, kind: Kind, range: &Range<usize>) -> Result<Vec<usize>, Refusal> {
        // Counts have no range of their own; one that can't be met shows in what follows.
        let count = self.number()?;
        let mut list = Vec::new();
        for _ in 0..count {
            let last = list.last().copied();
            list.push(match kind {
                Kind::Old => self.increasing(last, range)?,
                Kind::New => self.behind_gap(last, range)?,
            });
        }
        Ok(list)
    }

    /// A feature behind the last one, if there was one.
    fn increasing(&mut self, last: Option<usize>, range: &Range<usize>) -> Result<usize, Refusal> {
        let number = self.number_within(range, Refusal::Range)?;
        if last.is_some_and(|last| number <= last) {
            return Err(Refusal::Order);
        }
        Ok(number)
    }

    /// The same by the gap less one, which leads to a larger one whatever it is.
    fn behind_gap(&mut self, last: Option<usize>, range: &Range<usize>) -> Result<usize, Refusal> {
        let least = last.map_or(0, |last| last + 1);
        let feature = least + self.number()? as usize;
        if range.contains(&feature) {
            Ok(feature)
        } else {
            Err(Refusal::Range)
        }
    }

    /// The bytes of the number being read, as far as they were read. It is so until the next one
    /// begins, and a limit over several numbers is judged before that.
    pub fn being_read(&self) -> Option<Range<usize>> {
        self.begun.map(|begun| begun..self.place)
    }

    /// Refuses bytes that follow what is due.
    pub fn finish(&mut self) -> Result<(), Refusal> {
        // From here on no single number is judged.
        self.begun = None;
        if self.place == self.bytes.len() {
            Ok(())
        } else {
            Err(Refusal::LeftOver)
        }
    }
}

/// Appends a number in its shortest form.
pub fn write_number(number: usize, bytes: &mut Vec<u8>) {
    assert!(number <= LARGEST, "no form for {number}");
    let mut left = number;
    while left >= 128 {
        bytes.push((left % 128) as u8 + 128);
        left /= 128;
    }
    bytes.push(left as u8);
}

/// A file that holds these numbers and nothing else.
pub fn encode(numbers: &[usize]) -> Vec<u8> {
    let mut bytes = Vec::new();
    for number in numbers {
        write_number(*number, &mut bytes);
    }
    bytes
}

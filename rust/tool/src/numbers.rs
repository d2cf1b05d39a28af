//! Numbers as the binary files hold them: groups of seven bits, low group first.

/// A number has at most so many groups.
const MOST_GROUPS: usize = 3;
/// The largest number that a file can hold.
pub const LARGEST: usize = 2_097_151;

/// Appends a number; one too large is written as the largest, which every range refuses as well.
pub fn put(bytes: &mut Vec<u8>, number: usize) {
    let mut left = number.min(LARGEST);
    while left >= 128 {
        bytes.push((left % 128 + 128) as u8);
        left /= 128;
    }
    bytes.push(left as u8);
}

/// Appends a list: its count, and then its numbers.
pub fn put_list(bytes: &mut Vec<u8>, list: &[usize]) {
    put(bytes, list.len());
    list.iter().for_each(|&number| put(bytes, number));
}

/// What stands at the front of some bytes, where a number is due.
#[derive(Clone, Copy, PartialEq, Eq, Debug)]
pub enum Form {
    /// A number in its shortest form.
    Number(usize),
    /// The bytes end inside a number, or before it.
    Ends,
    /// A number that has a shorter form.
    Padded,
    /// A number whose last allowed byte says that more follows.
    Endless,
}

/// Reads what stands at the front of the bytes, and tells how many of them were read.
pub fn read(bytes: &[u8]) -> (Form, usize) {
    let mut number = 0;
    for (index, &byte) in bytes.iter().take(MOST_GROUPS).enumerate() {
        number += usize::from(byte % 128) << (7 * index);
        match byte {
            0 if index > 0 => return (Form::Padded, index + 1),
            0..=127 => return (Form::Number(number), index + 1),
            // Another group follows.
            128.. => {}
        }
    }
    match bytes.len() < MOST_GROUPS {
        true => (Form::Ends, bytes.len()),
        false => (Form::Endless, MOST_GROUPS),
    }
}

/// Takes a number off the front of the bytes; none if no number stands there in its shortest form.
pub fn take(bytes: &mut &[u8]) -> Option<usize> {
    match read(bytes) {
        (Form::Number(number), length) => {
            *bytes = &bytes[length..];
            Some(number)
        }
        _ => None,
    }
}

/// Takes so many numbers.
pub fn take_many(bytes: &mut &[u8], count: usize) -> Option<Vec<usize>> {
    (0..count).map(|_| take(bytes)).collect()
}

/// Takes a list: its count, and then its numbers.
pub fn take_list(bytes: &mut &[u8]) -> Option<Vec<usize>> {
    let count = take(bytes)?;
    take_many(bytes, count)
}

#[cfg(test)]
mod tests {
    use super::*;

    #[test]
    fn numbers_take_the_shortest_form() {
        let written = |number| {
            let mut bytes = Vec::new();
            put(&mut bytes, number);
            bytes
        };
        assert_eq!(written(0), [0]);
        assert_eq!(written(127), [127]);
        assert_eq!(written(128), [0x80, 1]);
        assert_eq!(written(16_383), [0xff, 0x7f]);
        assert_eq!(written(16_384), [0x80, 0x80, 1]);
        // Feature 30,975, the last of a bay of sixteen slots: 127 + 128 * 113 + 16,384 * 1.
        assert_eq!(written(30_975), [0xff, 0xf1, 1]);
        assert_eq!(written(LARGEST), [0xff, 0xff, 0x7f]);
        assert_eq!(written(usize::MAX), [0xff, 0xff, 0x7f]);
    }

    #[test]
    fn what_is_written_is_taken_again() {
        let numbers = [0, 127, 128, 300, 16_383, 16_384, 30_975, LARGEST];
        let mut bytes = Vec::new();
        put_list(&mut bytes, &numbers);
        bytes.push(9);
        let mut left = bytes.as_slice();
        assert_eq!(take_list(&mut left).unwrap(), numbers);
        assert_eq!(left, [9]);
    }

    #[test]
    fn every_form_is_told_from_the_others() {
        let due: [(&[u8], Form, usize); 15] = [
            (&[], Form::Ends, 0),
            (&[127, 9], Form::Number(127), 1),
            (&[0x80], Form::Ends, 1),
            (&[0x80, 0, 9], Form::Padded, 2),
            (&[0xff, 0], Form::Padded, 2),
            (&[0x80, 1, 9], Form::Number(128), 2),
            (&[0xff, 0x7f, 9], Form::Number(16_383), 2),
            (&[0x80, 0x80], Form::Ends, 2),
            (&[0x80, 0x80, 0, 9], Form::Padded, 3),
            (&[0xff, 0xff, 0], Form::Padded, 3),
            (&[0x80, 0x80, 1, 9], Form::Number(16_384), 3),
            (&[0x81, 0x82, 3], Form::Number(1 + 2 * 128 + 3 * 16_384), 3),
            (&[0xff, 0xff, 0x7f], Form::Number(LARGEST), 3),
            (&[0x80, 0x80, 0x80], Form::Endless, 3),
            (&[0xff, 0xff, 0xff, 9], Form::Endless, 3),
        ];
        for (bytes, form, length) in due {
            assert_eq!(read(bytes), (form, length), "{bytes:?}");
        }
    }

    #[test]
    fn other_forms_are_not_taken() {
        let others: [&[u8]; 6] = [
            &[],
            &[0x80],
            &[0x80, 0],
            &[0x80, 0x80],
            &[0x80, 0x80, 0],
            &[0x80, 0x80, 0x80, 1],
        ];
        for mut bytes in others {
            assert_eq!(take(&mut bytes), None);
        }
        assert_eq!(take_list(&mut &[2, 7][..]), None);
    }
}

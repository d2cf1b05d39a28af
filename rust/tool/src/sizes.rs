//! The sizes of the variables, with which a task file and a partial file begin.

use crate::notation::Notation;
use crate::numbers;

/// The sizes of a task of either kind; none where the file does not begin with as many as it says.
pub fn of_task(mut file: &[u8]) -> Option<Vec<usize>> {
    Notation::take_off(&mut file)?;
    numbers::take_list(&mut file)
}

/// The sizes of the task that is built of a partial file: each variable has one value more.
pub fn of_built(mut partial: &[u8]) -> Option<Vec<usize>> {
    let sizes = numbers::take_list(&mut partial)?.into_iter();
    Some(sizes.map(|size| size + 1).collect())
}

#[cfg(test)]
mod tests {
    use super::*;

    #[test]
    fn a_file_begins_with_its_sizes() {
        let file = [3, 2, 0x80, 1, 9, 0, 0];
        let new = [&[0], &file[..]].concat();
        assert_eq!(of_task(&file).unwrap(), [2, 128, 9]);
        assert_eq!(of_task(&new).unwrap(), [2, 128, 9]);
        assert_eq!(of_built(&file).unwrap(), [3, 129, 10]);
        for length in 0..5 {
            assert_eq!(of_task(&file[..length]), None, "{length}");
            assert_eq!(of_task(&new[..length + 1]), None, "{length}");
        }
    }

    #[test]
    fn a_partial_file_has_one_kind() {
        assert_eq!(of_built(&[0, 1, 2]).unwrap(), []);
    }
}

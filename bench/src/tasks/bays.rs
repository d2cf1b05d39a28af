//! Bays whose goal swaps two pallets where there are two, so that no moves lead there; the library writes their task files.

use super::{Case, Kind};
use crate::{library, rooms};

pub fn case(rows: u8, columns: u8, kind: Kind) -> Case {
    Case {
        name: format!("bay {rows} by {columns}"),
        file: task_file(rows, columns),
        kind,
    }
}

pub fn task_file(rows: u8, columns: u8) -> Vec<u8> {
    written(|room| library::build(&bay_file(rows, columns), room))
}

pub fn bay_file(rows: u8, columns: u8) -> Vec<u8> {
    let start: Vec<u8> = (0..rows * columns).collect();
    let mut goal = start.clone();
    if let [_, one, other, ..] = &mut goal[..] {
        std::mem::swap(one, other);
    }
    [vec![rows, columns], start, goal].concat()
}

/// The file that a call of the library writes.
pub fn written(call: impl Fn(&mut [u8]) -> u64) -> Vec<u8> {
    rooms::written(call).expect("the library writes a file within its limits")
}

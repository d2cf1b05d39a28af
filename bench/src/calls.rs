//! The calls that are held against each other: the library's, and those of the plain Rust, with answers as the library gives them.

use crate::plain::{self, Anew, Numbering, Tables};
use crate::{answer, library};

/// Reads its file or its workspace, and writes to a room.
pub type Call<I> = fn(&[I], &mut [u64]) -> u64;

/// The library, the plain Rust, the plain Rust with tables that are kept, and the plain Rust one row at a time.
pub const OPENINGS: [Call<u8>; 4] = [library::open, open::<Anew>, open::<Tables>, |file, room| {
    answer::opened(plain::open_at_once::<Anew>(file, room))
}];

/// The first three of them: finding is the same whichever way the slots were filled.
pub const FINDINGS: [Call<u64>; 3] = [library::find, find::<Anew>, find::<Tables>];

fn open<N: Numbering>(file: &[u8], room: &mut [u64]) -> u64 {
    answer::opened(plain::open::<N>(file, room))
}

fn find<N: Numbering>(workspace: &[u64], room: &mut [u64]) -> u64 {
    answer::found(plain::find::<N>(workspace, room))
}

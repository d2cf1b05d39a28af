//! libm4ri's reduced echelon form, through the C side in m4ri/echelon.c.

use crate::measure;
use crate::plain::WORD_BITS;
use std::ffi::{c_int, c_void};
use std::ops::Range;
use std::time::Duration;

extern "C" {
    fn echelon_new(words: *const u64, count: usize, features: usize) -> *mut c_void;
    fn echelon_free(echelon: *mut c_void);
    fn echelon_refill(echelon: *mut c_void);
    fn echelon_reduce(echelon: *mut c_void, way: c_int) -> usize;
    fn echelon_word(echelon: *const c_void, row: usize, word: usize) -> u64;
}

/// libm4ri's ways to the same form: its own choice, the four Russians, and a decomposition.
pub const WAYS: [&str; 3] = ["echelonize", "echelonize_m4ri", "echelonize_pluq"];

/// The ways that are held against the slots: where one takes long the four Russians alone.
pub fn checked_ways(is_long: bool) -> Range<usize> {
    if is_long {
        1..2
    } else {
        0..WAYS.len()
    }
}

/// Rows that are brought to their reduced echelon form.
pub struct Echelon {
    matrix: *mut c_void,
    width: usize,
    /// The rank that the last reduction answered.
    rank: usize,
}

impl Echelon {
    pub fn new(rows: &[u64], features: usize) -> Echelon {
        let width = features.div_ceil(WORD_BITS);
        // SAFETY: the rows are alive and have `width` words each; they are copied.
        let matrix = unsafe { echelon_new(rows.as_ptr(), rows.len() / width, features) };
        Echelon {
            matrix,
            width,
            rank: 0,
        }
    }

    /// Brings the rows as they came to their reduced echelon form, and answers how long that took.
    pub fn timed_reduction(&mut self, way: usize) -> Duration {
        // SAFETY: the matrix is alive until drop.
        unsafe { echelon_refill(self.matrix) };
        // SAFETY: the same.
        measure::timed(1, || {
            self.rank = unsafe { echelon_reduce(self.matrix, way as c_int) }
        })
    }

    /// The rows of the reduced form that are not zero, one after the other.
    pub fn words(&self) -> Vec<u64> {
        let places = (0..self.rank).flat_map(|row| (0..self.width).map(move |word| (row, word)));
        places
            // SAFETY: the matrix is alive until drop, and has the row and the word.
            .map(|(row, word)| unsafe { echelon_word(self.matrix, row, word) })
            .collect()
    }
}

impl Drop for Echelon {
    fn drop(&mut self) {
        // SAFETY: nothing uses the matrix after this.
        unsafe { echelon_free(self.matrix) }
    }
}

//! The limits of the rules, each in this place alone.

/// v, the variables of a task.
pub const MOST_VARIABLES: usize = 64;

/// d, the values of a variable.
pub const MOST_VALUES: usize = 64;

/// The rows of a bay, and its columns.
pub const MOST_SIDE: usize = 9;

/// n, the slots of a bay.
pub const LEAST_SLOTS: usize = 2;

/// The bytes that the finder program takes.
pub const MOST_LINE_BYTES: usize = 8_192;

/// N in the finder program; it stays where the library's moves.
pub const MOST_LINE_FEATURES: usize = 640;

/// The limits that a request has moved; whatever is read is read by some of these.
#[derive(Clone, Copy, Debug, PartialEq, Eq)]
pub struct Limits {
    /// The groups of seven bits in a number.
    pub groups: usize,
    /// N, the features of a task.
    pub features: usize,
    /// n, the slots of a bay.
    pub slots: usize,
}

impl Limits {
    /// The largest number that the groups hold.
    pub const fn largest(self) -> usize {
        (1 << (7 * self.groups)) - 1
    }
}

/// Document 01's, until document 02's sixth request.
pub const BEFORE: Limits = Limits {
    groups: 2,
    features: 4_096,
    slots: 9,
};

/// Those of that request: bays of sixteen.
pub const NOW: Limits = Limits {
    groups: 3,
    features: 32_768,
    slots: 16,
};

/// The largest number of a file, and the most operators that a file counts.
pub const LARGEST: usize = NOW.largest();

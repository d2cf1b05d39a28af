//! The refusal numbers.

/// Why a call is refused; the discriminants are the documents' numbers.
#[derive(Clone, Copy, Debug, PartialEq, Eq, PartialOrd, Ord)]
pub enum Refusal {
    /// Input ends inside what is due.
    InputEnds = 1,
    /// The number of variables, a size, N, or a bay dimension breaks its limit.
    Limit = 2,
    /// A value, variable, entry count, feature or label is outside its range, or a file that should
    /// be of the new kind begins with another number.
    Range = 3,
    /// Entries, pairs or weights don't increase.
    Order = 4,
    /// Bytes are left over.
    LeftOver = 5,
    /// The start holds a listed pair.
    StartHoldsPair = 6,
    /// The pairs aren't closed under an operator.
    NotClosed = 7,
    /// Lent room is too small.
    Room = 8,
    /// A workspace isn't well formed.
    Workspace = 9,
    /// A bay list has no gap or more than one.
    Gap = 10,
    /// A bay's start and goal hold some label unequally often.
    Lots = 11,
    /// A number isn't in shortest form.
    NotShortest = 12,
    /// The last byte that a number may have says that more follows.
    MoreFollows = 13,
}

impl Refusal {
    pub fn number(self) -> u64 {
        self as u64
    }
}

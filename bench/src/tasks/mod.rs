//! The task files that are measured.

pub mod bays;
pub mod chains;
mod dense;
mod random;
mod write;

/// A task file with a name for the table.
pub struct Case {
    pub name: String,
    pub file: Vec<u8>,
    pub kind: Kind,
}

/// What a case is, and so what it is held to beside the targets of all.
#[derive(Clone, Copy, PartialEq, Eq)]
pub enum Kind {
    /// A bay without a target of its own.
    Bay,
    /// The bay of nine slots: a target beside libm4ri.
    Nine,
    /// The bay of sixteen slots: targets beside libm4ri and beside one row at a time, and few rounds.
    Sixteen,
    /// A random task: a target beside one row at a time.
    Dense,
}

impl Case {
    /// Whether few runs are enough to see how long it takes.
    pub fn is_long(&self) -> bool {
        self.kind == Kind::Sixteen
    }

    pub fn is_bay(&self) -> bool {
        self.kind != Kind::Dense
    }
}

pub fn cases() -> Vec<Case> {
    let mut cases = vec![
        bays::case(2, 3, Kind::Bay),
        bays::case(3, 3, Kind::Nine),
        bays::case(4, 4, Kind::Sixteen),
    ];
    cases.extend(dense::cases());
    cases
}

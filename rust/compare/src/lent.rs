//! Memory lent to a call, with guards on both sides that it must not touch.

/// Items of lent memory, each with a value that guards are made of.
pub trait Item: Copy + PartialEq + std::fmt::LowerHex {
    const GUARD: Self;
    /// Digits of an item in hexadecimal.
    const DIGITS: usize;
}

impl Item for u8 {
    const GUARD: u8 = 0xA5;
    const DIGITS: usize = 2;
}

impl Item for u64 {
    const GUARD: u64 = 0xA5A5_5A5A_C3C3_3C3C;
    const DIGITS: usize = 16;
}

/// Guards on each side.
const GUARDS: usize = 8;

/// A slice between guards, in one allocation.
#[derive(Clone)]
pub struct Lent<Kind> {
    buffer: Vec<Kind>,
}

impl<Kind: Item> Lent<Kind> {
    pub fn new(contents: &[Kind]) -> Self {
        let guard = [Kind::GUARD; GUARDS];
        Lent {
            buffer: [&guard[..], contents, &guard[..]].concat(),
        }
    }

    pub fn length(&self) -> usize {
        self.buffer.len() - 2 * GUARDS
    }

    pub fn contents(&self) -> &[Kind] {
        &self.buffer[GUARDS..GUARDS + self.length()]
    }

    pub fn pointer(&self) -> *const Kind {
        self.contents().as_ptr()
    }

    pub fn pointer_for_writing(&mut self) -> *mut Kind {
        // Taken from the whole buffer, so that a write past the slice lands in a guard.
        self.buffer.as_mut_ptr().wrapping_add(GUARDS)
    }

    pub fn guards_stand(&self) -> bool {
        let (before, rest) = self.buffer.split_at(GUARDS);
        let after = &rest[self.length()..];
        before.iter().chain(after).all(|item| *item == Kind::GUARD)
    }

    /// Whether a lent input is as it was.
    pub fn still_holds(&self, contents: &[Kind]) -> bool {
        self.guards_stand() && self.contents() == contents
    }
}

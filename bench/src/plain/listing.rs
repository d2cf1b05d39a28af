//! What an old task file lists, and where its pairs stand.

use super::file::{Reader, Refusal};
use super::numbering::Anew;
use super::set;
use super::task::Front;
use std::ops::Range;

pub struct Listing {
    pub features: usize,
    pub pairs: usize,
    pub operators: usize,
    /// The bytes of the pair list, its count included.
    pub pair_bytes: Range<usize>,
}

impl Listing {
    /// Reads a task file as far as the count of its operators; its pair list may be any.
    pub fn read(bytes: &[u8]) -> Result<Listing, Refusal> {
        let mut reader = Reader::new(bytes);
        let front = Front::<Anew>::read(&mut reader)?;
        let pairs_end = bytes.len() - reader.rest().len();
        Ok(Listing {
            features: front.features.count(),
            pairs: set::members(&front.listed).count(),
            operators: reader.number()?,
            pair_bytes: front.bytes_before_pairs()..pairs_end,
        })
    }
}

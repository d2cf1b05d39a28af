//! Plain Rust of the library's algorithm, as one would write it without proofs, for either way of numbering; and opening one row at a time.

mod features;
mod file;
mod listing;
mod mending;
mod numbering;
mod observer;
mod pairs;
mod postponed;
mod rows;
mod set;
mod slots;
mod task;
mod workspace;

pub use file::{write_list, write_number, write_numbers, Reader, Refusal};
pub use listing::Listing;
pub use mending::{mend, Mended};
pub use numbering::{Anew, Numbering, Tables};
pub use observer::Additions;
pub use postponed::PENDING_SHARE;
pub use set::WORD_BITS;
pub use task::Task;
pub use workspace::{find, open, open_at_once, open_observed, rows_of};

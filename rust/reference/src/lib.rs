//! Reference implementation of the task library, written from documents 01 and 02 alone.
//!
//! It favours the definitions: small tasks are judged by enumerating states and sets. Larger
//! tasks use other routes, which the tests hold against the enumerations.

pub mod bay;
pub mod calls;
pub mod feature_set;
pub mod features;
pub mod finder;
pub mod forced;
pub mod kinds;
pub mod limits;
pub mod line;
pub mod mending;
pub mod numbers;
pub mod operators;
pub mod partial;
pub mod places;
pub mod refusal;
pub mod sample;
pub mod search;
pub mod separation;
pub mod task;
pub mod weights;
pub mod workspace;

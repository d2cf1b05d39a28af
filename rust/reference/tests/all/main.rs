//! The reference's own tests, in one program, so that they are linked once.

mod checker_cases;
mod cut_files;
mod kinds;
mod limits;
mod marked_cases;
mod mending;
mod partials;
mod places;
mod refusals;
mod samples;
mod self_check;
mod soundness;
mod unnamed_pairs;

//! What is said of a task file or of a weight file that was refused.

use crate::fault::Fault;
use crate::notation::Notation;
use crate::pair_list;
use crate::place::{self, Kind};

const NEW_WEIGHTS: &str = "a weight file that begins with 0 and goes on is a new one";

/// Says of a task file where it is at fault, and which pair is.
pub fn task(fault: Fault, kind: Kind, file: &[u8]) -> Fault {
    pair_list::told(place::told(fault, kind, file).about(file), file)
}

/// Says of a weight file where it is at fault.
pub fn weights(fault: Fault, kind: Kind, file: &[u8]) -> Fault {
    let is_new = matches!(kind, Kind::Weights(Notation::New, _));
    match place::told(fault, kind, file).about(file) {
        // Read as an old file it lists nothing, and all else is left over.
        fault @ Fault::Refused(5) if !is_new && file.starts_with(&[0]) => {
            fault.explained(NEW_WEIGHTS)
        }
        other => other,
    }
}

//! The ways to fill the silent slots, where these were asked one by one.

use super::listed::Listed;
use super::{counts, listing, pictures};
use crate::question::{Answered, Proof, Way};
use crate::words::counted;

/// The proof that consists of one proof for each way.
pub fn proved(answered: &Answered) -> String {
    format!(
        "<section>\n<h2>The proof, way by way</h2>\n\
         <p>No pallet comes or goes, so the slots with a question mark can only hold what is left, \
         which can be put there in {}. Each way is a full order. Each was asked by itself, and each \
         is impossible: there is a list of <em>features</em>, statements about what one slot or two \
         slots hold, of which an odd number is true in the one bay and an even number in the other, \
         while no move can change odd to even. Below, each way has its pictures, both counts and \
         its list, if that is not too long. A page about one of these full orders, made by <code>florumeja report</code>, \
         also shows move by move why its count cannot change from odd to even.</p>\n</section>\n{}{BY_PROGRAM}",
        counted(answered.ways.len(), "way"),
        all(&answered.ways)
    )
}

const BY_PROGRAM: &str = "<section>\n<h2>Who checked it</h2>\n\
     <p>One part of the program found the lists, and another part, the checker, checked each. The \
     checker is proved correct: it accepts a list only if no sequence of moves leads from the one \
     bay to the other. It accepted them all. That moves keep what is in the bay, so that these are \
     all the ways, is proved as well.</p>\n\
     <p>To check it again: <code>florumeja ask FILE --task TASK --weights WEIGHTS</code> keeps the \
     evidence, for way 1 in TASK.1 and WEIGHTS.1 and so on, and <code>florumeja check TASK.1 \
     WEIGHTS.1</code> hands it to the checker alone.</p>\n</section>\n";

/// What is known of each way, where not all are impossible; nothing if none was asked.
pub fn known(answered: &Answered) -> String {
    if answered.ways.is_empty() {
        return String::new();
    }
    format!(
        "<section>\n<h2>The ways one by one</h2>\n\
         <p>The slots with a question mark can be filled in {}. Each was asked by itself: {} of {} \
         impossible. Nothing is known of the others.</p>\n</section>\n{}",
        counted(answered.ways.len(), "way"),
        answered.impossible_ways(),
        answered.ways.len(),
        all(&answered.ways)
    )
}

fn all(ways: &[Way]) -> String {
    let numbered = ways.iter().enumerate();
    numbered.map(|(index, way)| one(index + 1, way)).collect()
}

fn one(number: usize, way: &Way) -> String {
    let bay = &way.bay;
    let wanted = bay.wanted();
    let bays = [("as it stands", &*bay.start), ("filled in", &*wanted)];
    let (answer, evidence) = match &way.asked.proof {
        Some(proof) => ("impossible", evidence(way, proof)),
        None => ("no parity proof", String::new()),
    };
    format!(
        "<section>\n<h2>Way {number}: {answer}</h2>\n{}{evidence}</section>\n",
        pictures::two(bay, bays, &[])
    )
}

fn evidence(way: &Way, proof: &Proof) -> String {
    let listed = Listed::new(proof);
    format!(
        "{}{}",
        counts(&way.bay, &listed),
        listing::table(&way.bay, &listed, proof)
    )
}

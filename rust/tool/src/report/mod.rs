//! The page that shows a proof to a person: one file, with its pictures inside.

mod change;
mod example;
mod forgetting;
mod grids;
mod listed;
mod listing;
mod move_table;
mod moves;
mod pictures;
mod provenance;
mod silent;
mod ways;
mod words;

use crate::answer::{ALIKE, NOT_DONE};
use crate::bay::{Bay, GAP};
use crate::fault::Fault;
use crate::features::{Atom, Feature};
use crate::output::Status;
use crate::question::{Answered, Proof, MOST_WAYS};
use crate::words::{counted, parity};
use listed::Listed;
use words::{escaped, feature};

const STYLE: &str = include_str!("page.css");

/// The page about one bay.
pub fn page(name: &str, answered: &Answered) -> Result<String, Fault> {
    let body = match &answered.asked.proof {
        Some(proof) => proved(&answered.bay, proof)?,
        None if answered.is_impossible_each_way() => ways::proved(answered),
        None => not_proved(answered),
    };
    let title = match answered.status() {
        Status::Yes => "IMPOSSIBLE",
        _ => "NO PARITY PROOF",
    };
    Ok(format!(
        "<!DOCTYPE html>\n<html lang=\"en\">\n<head>\n<meta charset=\"utf-8\">\n\
         <meta name=\"viewport\" content=\"width=device-width, initial-scale=1\">\n\
         <title>{title}: {name}</title>\n<style>\n{STYLE}</style>\n</head>\n<body>\n\
         {}{}{body}{}</body>\n</html>\n",
        verdict(&escaped(name), answered),
        both(&answered.bay),
        provenance::section(answered)?,
        name = escaped(name),
    ))
}

fn verdict(name: &str, answered: &Answered) -> String {
    let described = answered.bay.described();
    let every_way = match answered.bay.is_full() {
        true => "",
        false => ", whichever way the slots with a question mark are filled",
    };
    let (kind, heading, words) = match answered.status() {
        Status::Yes => (
            "impossible",
            "IMPOSSIBLE",
            format!(
                "No sequence of moves leads from the bay as it stands to the bay as it is \
                 wanted{every_way}. It is not a matter of skill or time: this page shows why. A \
                 checker that is proved correct has accepted the proof."
            ),
        ),
        _ => ("unknown", "NO PARITY PROOF", NOT_DONE.to_string()),
    };
    format!(
        "<header class=\"{kind}\">\n<p class=\"file\">{name}: {described}</p>\n<h1>{heading}</h1>\n\
         <p>{words}</p>\n</header>\n"
    )
}

fn both(bay: &Bay) -> String {
    let wanted = bay.wanted();
    let bays = [("as it stands", &*bay.start), ("as it is wanted", &*wanted)];
    let (slot, pallet) = match bay.letters.is_empty() {
        true => ("letter", "number"),
        false => ("number", "letter"),
    };
    format!(
        "<section>\n<h2>The order</h2>\n{}\
         <p>Each slot has a {slot}, each pallet a {pallet}. The dashed slot is the gap. A move slides a \
         pallet from a slot beside the gap, in the same row or column, into the gap.</p>\n{}{}</section>\n",
        pictures::two(bay, bays, &[]),
        alike(bay),
        silent::below_picture(bay)
    )
}

fn alike(bay: &Bay) -> String {
    let alike = bay.alike();
    alike.map_or(String::new(), |alike| {
        format!("<p>{ALIKE}: {alike}. It does not matter which of them is where.</p>\n")
    })
}

fn not_proved(answered: &Answered) -> String {
    let bay = &answered.bay;
    let words = match (bay.is_full(), bay.is_met()) {
        (true, true) => "The two bays are alike, so there is nothing to prove impossible.",
        (false, true) => {
            "The bay as it stands has all that the order names, so there is nothing to prove \
             impossible."
        }
        _ => {
            "The program looked for a proof of one kind: a list of statements about one slot or \
             two slots of which an odd number is true in the one bay and an even number in the \
             other, while no move can change odd to even. No such list exists, so there is no \
             proof of this kind that the order is impossible. There is no proof that it can be \
             done either: nobody has looked for moves."
        }
    };
    format!(
        "<section>\n<h2>What this means</h2>\n<p>{words}</p>\n{}</section>\n{}",
        not_asked(bay),
        ways::known(answered)
    )
}

// Where there are too many ways to ask each by itself, the page says so.
fn not_asked(bay: &Bay) -> String {
    let ways = bay.ways();
    if ways <= MOST_WAYS {
        return String::new();
    }
    format!(
        "<p>The slots with a question mark can be filled in {ways} ways. These were not asked one \
         by one, as they are more than {MOST_WAYS}.</p>\n"
    )
}

fn proved(bay: &Bay, proof: &Proof) -> Result<String, Fault> {
    let listed = Listed::new(proof);
    Ok([
        silent::section(bay),
        idea(bay, &listed),
        truths(bay, &listed),
        why(bay, &listed),
        every_move(bay, &listed)?,
        silent::forgetting(bay, &listed)?,
        whole_list(bay, &listed, proof),
        by_hand(bay, &listed),
        by_program(bay),
    ]
    .concat())
}

fn idea(bay: &Bay, listed: &Listed) -> String {
    let start = listed.true_in(&bay.start).len();
    let goal = listed.true_in(&bay.wanted()).len();
    let held = Atom::new(0, bay.pallets()[0]);
    let no_step = match bay.is_full() {
        true => "No move can change",
        false => "No move and no forgetting can change",
    };
    format!(
        "<section>\n<h2>The proof in short</h2>\n\
         <p>A <em>feature</em> is a plain statement about the bay. It names what one slot holds, \
         as in <q>{one}</q>, or what two slots hold, as in <q>{two}</q>. The proof is a list of \
         {features}. Look at the bay, and count how many statements on the list are true.</p>\n\
         {counts}\
         <p><strong>{no_step} an odd count to an even one, or an even count to an odd \
         one.</strong> So the count, which is {was} as the bay stands, stays {was} for ever. As \
         the bay is wanted it would have to be {wanted}, so that is never reached.</p>\n\
         </section>\n",
        one = feature(bay, Feature::Single(held)),
        two = feature(bay, Feature::pair(held, Atom::new(1, GAP))),
        features = counted(listed.len(), "feature"),
        counts = counts(bay, listed),
        was = parity(start),
        wanted = parity(goal),
    )
}

// How many listed features are true in each of the two bays.
fn counts(bay: &Bay, listed: &Listed) -> String {
    let start = count("start", "as it stands", listed.true_in(&bay.start).len());
    let goal = count(
        "goal",
        "as it is wanted",
        listed.true_in(&bay.wanted()).len(),
    );
    format!("<div class=\"counts\">\n{start}{goal}</div>\n")
}

fn count(kind: &str, words: &str, count: usize) -> String {
    format!(
        "<div class=\"count {kind}\"><span>{words}</span><b>{count}</b><span>true: \
         <strong>{}</strong></span></div>\n",
        parity(count)
    )
}

fn truths(bay: &Bay, listed: &Listed) -> String {
    let column = |kind: &str, words: &str, state: &[usize]| {
        let features = listed.true_in(state);
        format!(
            "<div class=\"{kind}\"><h3>{words}: {}, {}</h3>{}</div>\n",
            features.len(),
            parity(features.len()),
            numbered(bay, &features)
        )
    };
    format!(
        "<section>\n<h2>The listed features that are true</h2>\n\
         <p>Hold each line against the picture above. Every listed feature that is not here is false there; \
         the whole list stands further down.</p>\n<div class=\"columns\">\n{}{}</div>\n</section>\n",
        column("start", "As it stands", &bay.start),
        column("goal", "As it is wanted", &bay.wanted()),
    )
}

fn numbered(bay: &Bay, features: &[Feature]) -> String {
    if features.is_empty() {
        return "<p>None.</p>".to_string();
    }
    let items: String = features
        .iter()
        .map(|&one| format!("<li>{}</li>", feature(bay, one)))
        .collect();
    format!("<ol>{items}</ol>")
}

fn why(bay: &Bay, listed: &Listed) -> String {
    format!(
        "<section>\n<h2>Why no move can change odd to even</h2>\n\
         <p>A move changes what two slots hold: the pallet leaves one, and the gap leaves the other. All other \
         slots stay as they are. So only features that name one of these two slots can change. \
         One that becomes true adds one to the count, one that becomes false takes one away.</p>\n\
         <p>The list was chosen so that the number of features that change is even at every \
         move, whichever pallet moves and wherever the others stand. Adding one and \
         taking one away both turn odd into even or even into odd, and \
         doing so an even number of times brings it back to what it was.</p>\n{}</section>\n",
        example::section(bay, listed)
    )
}

fn every_move(bay: &Bay, listed: &Listed) -> Result<String, Fault> {
    Ok(format!(
        "<section>\n<h2>Every move of this bay</h2>\n\
         <p>A row stands for one pallet sliding between two slots, either way. The features that \
         change are counted in parts: those that name only the two slots, and then, for each other \
         slot, those that name it as well. How many change may depend on the pallet that stands in \
         the other slot, but whether the part is odd or even does not. An even number of odd parts \
         makes an even sum, and the last column shows that each row has an even number of \
         them.</p>\n{}</section>\n",
        move_table::of_moves(bay, listed)?
    ))
}

fn whole_list(bay: &Bay, listed: &Listed, proof: &Proof) -> String {
    format!(
        "<section>\n<h2>The whole list: {}</h2>\n\
         <p>Each filled square is a feature on the list. In the first grid a row is a slot and a \
         column is what it holds (&#8226; is the gap{unknown}{spare}). Each of the other grids is about two slots: \
         the row is what the first holds, the column is what the second holds.</p>\n{}\
         {}{}</section>\n",
        counted(listed.len(), "feature"),
        grids::legend(bay),
        grids::all(bay, listed),
        listing::table(bay, listed, proof),
        unknown = if bay.is_full() { "" } else { ", ? is unknown" },
        spare = match bay.has_spare_labels() {
            true => ", a number in brackets is a label that no pallet has",
            false => "",
        },
    )
}

fn by_hand(bay: &Bay, listed: &Listed) -> String {
    let start = listed.true_in(&bay.start).len();
    let goal = listed.true_in(&bay.wanted()).len();
    let (low, high) = bay.neighbours()[0];
    let pallet = bay.pallets()[0];
    let [low_gap, low_one] = [GAP, pallet].map(|label| Atom::new(low, label));
    let [high_gap, high_one] = [GAP, pallet].map(|label| Atom::new(high, label));
    let other = match bay.often(pallet) {
        1 => format!("a pallet for it, any but pallet {}", bay.name(pallet)),
        _ => "any pallet for it".to_string(),
    };
    format!(
        "<section>\n<h2>Check it by hand</h2>\n<ol class=\"steps\">\n\
         <li>In the grids above, count the filled squares with a round mark: {start}, {was}. \
         Count the filled squares with a square mark: {goal}, {wanted}.</li>\n\
         <li>Take any row of the table of moves, say pallet {name} between {low} and {high}. At one end \
         of the move {first}, at the other {second}. These are four statements.</li>\n\
         <li>For the part of the two slots, look up the four statements in the first grid, and \
         <q>{first}</q> and <q>{second}</q> in the grid of {low} and {high}. Count the filled \
         squares.</li>\n\
         <li>For the part of another slot, pick {other}{unknown}. Look up the \
         four pairs that it makes with the four statements, and count the filled squares. Do so \
         for each pallet that can stand there.</li>\n\
         <li>Add up the parts. The sum is even, whatever you picked. So it is for every row, and \
         so no move changes odd to even or even to odd.</li>\n</ol>\n</section>\n",
        was = parity(start),
        wanted = parity(goal),
        name = bay.name(pallet),
        low = words::slot(bay, low),
        high = words::slot(bay, high),
        first = feature(bay, Feature::pair(low_gap, high_one)),
        second = feature(bay, Feature::pair(low_one, high_gap)),
        unknown = if bay.is_full() { "" } else { ", or unknown" },
    )
}

fn by_program(bay: &Bay) -> String {
    let steps = match bay.is_full() {
        true => "moves leads",
        false => "moves and forgetting leads",
    };
    format!(
        "<section>\n<h2>Who checked it</h2>\n\
         <p>One part of the program found the list, and another part, the checker, checked it. The \
         checker is proved correct: it accepts a list only if no sequence of {steps} from the one \
         bay to the other. It accepted this one.</p>\n\
         <p>To check it again: <code>florumeja ask FILE --task TASK --weights WEIGHTS</code> keeps the \
         evidence, and <code>florumeja check TASK WEIGHTS</code> hands it to the checker alone.</p>\n\
         </section>\n"
    )
}

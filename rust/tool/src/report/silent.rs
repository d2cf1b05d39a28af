//! What the page says of slots that the order does not name.

use super::listed::Listed;
use super::move_table;
use super::words::slots;
use crate::bay::Bay;
use crate::fault::Fault;

/// What is said below the picture of such an order; nothing for an order that names every slot.
pub fn below_picture(bay: &Bay) -> String {
    if bay.is_full() {
        return String::new();
    }
    format!(
        "<p>The order {}. A question mark is a slot that it does not name: there anything will do \
         that is left, a pallet or the gap.</p>\n",
        bay.named()
    )
}

/// Why a proof about unknown slots speaks of every way to fill them.
pub fn section(bay: &Bay) -> String {
    if bay.is_full() {
        return String::new();
    }
    format!(
        "<section>\n<h2>Every way to fill the rest</h2>\n\
         <p>The proof does not go through the ways to fill {slots} one by one. It allows another \
         kind of step beside the moves: a slot that the order does not name may be \
         <em>forgotten</em>. From then on it is <q>unknown</q>, and no pallet leaves it or comes \
         to it. Nothing is forgotten that the order names for another slot{but_alike}.</p>\n\
         <p>Suppose that moves led to a bay that has all that the order names. Then {slots} could \
         be forgotten, and we would have the bay as it is wanted above, with unknown for each \
         question mark. The proof shows that moves and forgetting together never lead there. So \
         no moves lead to such a bay, whatever {slots} would hold.</p>\n</section>\n",
        slots = slots(bay, &bay.silent()),
        but_alike = match bay.alike() {
            Some(_) => ", unless more than one pallet has that label",
            None => "",
        }
    )
}

/// Why forgetting keeps odd and even.
pub fn forgetting(bay: &Bay, listed: &Listed) -> Result<String, Fault> {
    if bay.is_full() {
        return Ok(String::new());
    }
    Ok(format!(
        "<section>\n<h2>Every slot that can be forgotten</h2>\n\
         <p>Forgetting changes one slot: what it held is no longer true of it, and it is unknown. \
         A row stands for one slot and what it holds before. The features that change are counted \
         in parts as above, and again each row has an even number of odd parts.</p>\n{}</section>\n",
        move_table::of_forgetting(bay, listed)?
    ))
}

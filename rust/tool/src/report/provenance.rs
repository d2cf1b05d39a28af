//! What a page is about: version, date, and the digests of the files.

use crate::date;
use crate::digest::sha256;
use crate::fault::Fault;
use crate::question::{Answered, Asked, Way};
use crate::VERSION;

/// The section at the foot of every page.
pub fn section(answered: &Answered) -> Result<String, Fault> {
    let digests = match answered.is_impossible_each_way() {
        true => of_each_way(answered),
        false => digests("", &answered.asked),
    };
    Ok(format!(
        "<section>\n<h2>What this page is about</h2>\n\
         <p>A bay of {}. Written by florumeja {VERSION} on {} (Universal Time).</p>\n\
         <ul>\n{digests}</ul>\n\
         <p>These are the digests of the files that <code>florumeja ask FILE --task TASK \
         --weights WEIGHTS</code> keeps; <code>sha256sum TASK WEIGHTS</code> shows whether the \
         files at hand are the same.</p>\n</section>\n",
        answered.bay.shape(),
        date::today()?
    ))
}

fn of_each_way(answered: &Answered) -> String {
    let numbered = answered.ways.iter().enumerate();
    let way = |(index, way): (usize, &Way)| digests(&format!(" of way {}", index + 1), &way.asked);
    numbered.map(way).collect()
}

fn digests(which: &str, asked: &Asked) -> String {
    let mut digests = digest(&format!("the task{which}"), &asked.task);
    if let Some(proof) = &asked.proof {
        digests.push_str(&digest(&format!("the weights{which}"), &proof.weight_file));
    }
    digests
}

fn digest(of: &str, bytes: &[u8]) -> String {
    let digest = sha256(bytes);
    format!("<li>SHA-256 of {of}: <code class=\"digest\">{digest}</code></li>\n")
}

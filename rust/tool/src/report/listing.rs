//! The whole list of features in words.

use super::listed::Listed;
use super::words::feature;
use crate::bay::Bay;
use crate::question::Proof;
use crate::words::{counted, parity};

/// Lists up to this length stand open on the page.
const SHORT: usize = 40;
/// Nobody reads a longer list, and it would make the page many times as large.
const LONGEST: usize = 2_000;

/// A row for each listed feature, with its number and where it is true; a long list is left out.
pub fn table(bay: &Bay, listed: &Listed, proof: &Proof) -> String {
    if listed.len() > LONGEST {
        return format!(
            "<p>The {} are not told in words here, as they are more than {LONGEST}. Their numbers \
             are in the answer to <code>florumeja ask --json FILE</code>.</p>\n",
            counted(listed.len(), "listed feature")
        );
    }
    let mut rows = String::new();
    for &number in &proof.weights {
        let one = proof.features.get(number);
        rows.push_str(&format!(
            "<tr><td>{number}</td><td class=\"said\">{}</td>{}{}</tr>\n",
            feature(bay, one),
            mark("start", one.holds_in(&bay.start)),
            mark("goal", one.holds_in(&bay.wanted()))
        ));
    }
    let table = format!(
        "<div class=\"wide\"><table class=\"features\"><thead><tr><th>number</th><th>feature</th>\
         <th>as it stands</th><th>as it is wanted</th></tr></thead>\n<tbody>\n{rows}</tbody>\n\
         <tfoot><tr><th></th><th>true</th>{}{}</tr></tfoot></table></div>\n",
        total("start", listed.true_in(&bay.start).len()),
        total("goal", listed.true_in(&bay.wanted()).len())
    );
    folded(&table, listed.len())
}

fn mark(kind: &str, holds: bool) -> String {
    if holds {
        return format!("<td class=\"{kind}\">true</td>");
    }
    "<td></td>".to_string()
}

fn total(kind: &str, count: usize) -> String {
    format!("<th class=\"{kind}\">{count}, {}</th>", parity(count))
}

// A long table would bury what follows it.
fn folded(table: &str, length: usize) -> String {
    if length <= SHORT {
        return table.to_string();
    }
    format!(
        "<details><summary>All {} in words, with their numbers (open to see or print them)\
         </summary>\n{table}</details>\n",
        counted(length, "feature")
    )
}

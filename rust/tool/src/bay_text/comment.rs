//! Tells comments in words from what a person draws with #.

use super::scan::is_label;
use crate::characters::is_blank;

/// What people draw walls, posts and frames with, or put between labels.
const DRAWN: &str = "#|+,;";

/// Whether the text behind a # could be the labels of a row.
pub fn reads_as_row(comment: &str, lettered: bool) -> bool {
    words(comment).next().is_some() && words(comment).all(|word| is_label(word, lettered))
}

/// Whether nobody could take the # for a part of the bay: it has letters and begins with a word.
pub fn is_in_words(comment: &str, lettered: bool) -> bool {
    let mut words = words(comment);
    comment.chars().any(char::is_alphabetic)
        && words.next().is_some_and(|word| !is_label(word, lettered))
}

fn words(comment: &str) -> impl Iterator<Item = &str> {
    let parts = comment.split(|character| is_blank(character) || DRAWN.contains(character));
    parts.filter(|word| !word.is_empty())
}

#[cfg(test)]
mod tests {
    use super::*;

    #[test]
    fn rows_behind_a_hash_are_seen_as_rows() {
        for row in [
            "# 4 5 6",
            "#4",
            "# 1 2 #",
            "#1 #2 #.",
            "# | 1 | 2 |",
            "# 1, 2;",
            "# .",
        ] {
            assert!(reads_as_row(row, false) && reads_as_row(row, true), "{row}");
        }
        for other in ["#", "# # #", "# ---", "# 3 by 3", "# 2026-11-15", "# ..."] {
            assert!(!reads_as_row(other, false), "{other}");
            assert!(!reads_as_row(other, true), "{other}");
        }
    }

    #[test]
    fn words_are_told_from_posts() {
        for comment in ["# front", "## the 2 at the back", "#2nd row", "# (é)"] {
            assert!(is_in_words(comment, false), "{comment}");
            assert!(is_in_words(comment, true), "{comment}");
        }
        for other in ["#", "# #", "# 2", "# 2 pallets", "# . a", "# ---"] {
            assert!(!is_in_words(other, false), "{other}");
            assert!(!is_in_words(other, true), "{other}");
        }
    }

    #[test]
    fn letters_behind_a_hash_are_labels_where_labels_are_letters() {
        for row in ["# A", "# A b .", "#A #B #", "# A, ?"] {
            assert!(reads_as_row(row, true) && !is_in_words(row, true), "{row}");
            assert!(
                !reads_as_row(row, false) && is_in_words(row, false),
                "{row}"
            );
        }
        assert!(is_in_words("# a wide one", false) && !is_in_words("# a wide one", true));
        assert!(!reads_as_row("# A apples, B pears", true));
    }
}

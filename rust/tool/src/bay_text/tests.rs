//! Texts of bays: those that are read, and those that are refused, each at its place.

use super::*;

fn fault(text: &str) -> String {
    match BayText::read(text.as_bytes()) {
        Ok(_) => "no fault".to_string(),
        Err(fault) => fault.words(),
    }
}

#[test]
fn both_bays_are_read_row_by_row() {
    let text = "# a comment\r\n\r\n1 2 # front\r\n. 3\r\n \r\n2\t1\r\n0 3\r\n\r\n";
    let bay = BayText::read(text.as_bytes()).unwrap().bay();
    assert_eq!((bay.rows, bay.columns), (2, 2));
    assert_eq!(bay.start, [1, 2, 0, 3]);
    assert_eq!(bay.wanted(), [2, 1, 0, 3]);
    assert_eq!(bay.file(), [2, 2, 1, 2, 0, 3, 2, 1, 0, 3]);
}

#[test]
fn slots_of_the_wanted_bay_may_be_silent() {
    let bay = BayText::read(b"1 2\n. 3\n\n? 1\n. ?\n").unwrap().bay();
    assert_eq!(bay.start, [1, 2, 0, 3]);
    assert_eq!(bay.goal, [None, Some(1), Some(0), None]);
    // As many labels are left as slots are silent.
    assert_eq!(bay.file(), [2, 2, 1, 2, 0, 3, 2, 1, 0, 3]);
    assert_eq!(
        fault("1 ?\n. 3\n\n? 1\n. ?\n"),
        "line 1, column 3: expected a label in every slot of the bay as it stands, found \"?\""
    );
    assert!(fault("1 .\n\n? ??\n").starts_with("line 3, column 3: expected a label ("));
    assert!(fault("1 .\n\n1? .\n").starts_with("line 3, column 1: expected a label ("));
    assert!(fault("1 .\n\n?\n").starts_with("line 3, column 2: expected 2 labels"));
}

#[test]
fn a_comment_that_could_be_silent_slots_is_refused() {
    assert!(fault("1 2\n. 3\n\n2 1\n# ? ?\n").contains("expected a comment in words"));
    assert!(fault("1 2\n. 3\n\n2 1 # ? perhaps\n? ?\n").contains("begins with a word"));
    assert_eq!(fault("1 2\n. 3\n\n2 1 # which of them?\n? ?\n"), "no fault");
}

#[test]
fn faults_name_line_and_column() {
    assert!(fault("1 xx\n").starts_with("line 1, column 3: expected a label"));
    assert!(fault("").starts_with("line 1, column 1: expected the bay as it stands"));
    assert!(fault("1 .\n\n").starts_with("line 1, column 4: expected a blank line"));
    assert!(fault("1 2\n.\n\n1 2\n. 3\n").starts_with("line 2, column 2: expected 2"));
    assert!(fault("1 .\n\n. 1 2\n").starts_with("line 3, column 5: expected 2 labels"));
    assert!(fault("1 .\n\n. 1\n\n1 .\n").starts_with("line 5, column 1: expected nothing"));
    assert!(fault("1\n.\n\n.\n").starts_with("line 4, column 2: expected 2 rows"));
}

#[test]
fn only_space_and_tab_are_blanks() {
    let all = ('\0'..=char::MAX).filter(|other| other.is_whitespace());
    for other in all.filter(|other| !matches!(other, ' ' | '\t' | '\n')) {
        let found = format!(", found U+{:04X}", other as u32);
        let at = |place: &str, text: String| {
            let words = fault(&text);
            assert!(
                words.starts_with(place) && words.contains(&found),
                "{words}"
            );
        };
        let place =
            "line 1, column 4: expected only digits, letters from A to Z, dots, question marks, spaces and tabs before a comment";
        at(place, format!("1 2{other}3 .\n\n2 1 3 .\n"));
        let place = "line 1, column 12: expected only plain letters and signs in a comment";
        at(place, format!("1 2 # front{other}3 .\n"));
    }
    assert_eq!(fault("1\t2\n3 .\n\n\t \n2 1\n3 .\t \n"), "no fault");
}

#[test]
fn a_carriage_return_stands_before_a_line_feed() {
    assert_eq!(fault("1 .\r\n\r\n. 1\r\n"), "no fault");
    assert!(fault("1 .\r\r\n\r\n. 1\r\n").starts_with("line 1, column 4"));
    assert!(fault("1 .\n\r. 1\n").starts_with("line 2, column 1"));
    assert!(fault("1 .\r\n\r\n. 1\r").starts_with("line 3, column 4"));
    assert!(fault("1 2\r3 .\r\r2 1\r3 .\r").starts_with("line 1, column 4"));
}

#[test]
fn what_is_not_seen_as_it_is_read_is_refused() {
    let at = |place: &str, text: &str| {
        let fault = fault(text);
        assert!(fault.starts_with(place), "{text:?}: {fault}");
    };
    // A combining stroke, a fullwidth digit, a digit of another script, a byte order mark.
    at(
        "line 1, column 4: expected only digits",
        "1 2\u{338}\n3 .\n",
    );
    at(
        "line 1, column 3: expected only digits",
        "1 \u{ff12}\n3 .\n",
    );
    at("line 1, column 3: expected only digits", "1 \u{662}\n3 .\n");
    at(
        "line 2, column 1: expected only digits",
        "1 2\n\u{feff}3 .\n",
    );
    at(
        "line 1, column 1: expected only digits",
        "\u{feff}\u{feff}1 2\n",
    );
    // A letter or a mark that turns the line round, in a comment too.
    at(
        "line 1, column 7: expected only plain",
        "1 2 # \u{5d0}\n3 .\n",
    );
    at("line 1, column 3: expected only plain", "# \u{202e}1 2\n");
    // UTF-16 without its mark.
    at("line 1, column 2: expected only digits", "1\0 \0.\0");
    // A zero before a label; frames, commas and other gaps.
    at(
        "line 2, column 1: expected a label without a zero",
        "1 2\n03\n",
    );
    at(
        "line 1, column 1: expected a label (",
        "| 1 | 2 |\n| 3 | . |\n",
    );
    at(
        "line 1, column 1: expected a label (",
        "+---+---+\n| 1 | . |\n",
    );
    at("line 1, column 1: expected a label (", "1,2\n3,.\n");
    at("line 2, column 3: expected a label (", "1 2\n3 _\n");
    at(
        "line 2, column 3: expected a number, as",
        "1 2\n3 O\n\n2 1\n3 O\n",
    );
}

#[test]
fn what_is_drawn_with_a_hash_is_no_comment() {
    let at = |place: &str, text: &str| {
        let fault = fault(text);
        assert!(fault.starts_with(place), "{text:?}: {fault}");
    };
    at(
        "line 1, column 3: expected a comment that begins",
        "1 # 2\n. # 3\n",
    );
    at(
        "line 1, column 5: expected a comment that begins",
        "1 2 #\n. 3 #\n",
    );
    at(
        "line 1, column 4: expected a comment that begins",
        "1 2#3 front\n",
    );
    at(
        "line 2, column 1: expected words in a comment between",
        "1 2\n# # #\n. 3\n",
    );
    at(
        "line 2, column 1: expected words in a comment between",
        "1\n#\n.\n",
    );
    at(
        "line 2, column 2: expected a comment in words",
        "1 2\n # 3 4\n. 5\n",
    );
    at(
        "line 2, column 1: expected a comment in words",
        "####\n# 1 2 #\n# 3 . #\n####\n",
    );
    at(
        "line 1, column 1: expected a comment in words",
        "#1 #2\n#3 .\n",
    );
    let start = "#\n# 3 by 3, 2026-11-15\n# ---\n1 2 # front\n# the row at the back\n3 .\n#\n";
    assert_eq!(fault(&format!("{start}\n# -----\n2 1\n3 .\n")), "no fault");
}

#[test]
fn labels_stand_as_they_are_read() {
    let uneven = |place: &str, text: &str| {
        let words = fault(text);
        let due = format!("{place}: expected labels evenly apart");
        assert!(words.starts_with(&due), "{text:?}: {words}");
    };
    // 4 stands below the gap, and nothing below 2.
    uneven("line 2, column 5", "1 2 .\n3   4 5\n\n1 2 .\n3 4 5\n");
    uneven("line 5, column 5", "1 2\n3 .\n\n1 2\n3   .\n");
    uneven("line 2, column 4", "1\t2\t.\n3\t\t4\t5\n\n1 2 .\n3 4 5\n");
    // An aisle, and two bays side by side.
    uneven(
        "line 1, column 8",
        "1 2    3 4\n5 6    7 .\n\n1 2 3 4\n5 6 7 .\n",
    );
    uneven(
        "line 1, column 7",
        "1 2   2 1\n3 .   3 .\n\n1 2   2 1\n3 .   3 .\n",
    );
    let begins = |text: &str| {
        let words = fault(text);
        assert!(
            words.contains("to begin below each other"),
            "{text:?}: {words}"
        );
    };
    begins("1 2\n3 .\n\n1 2\n  3 .\n");
    begins("  1 2\n3 .\n\n1 2\n3 .\n");
    begins("1 2 .\n\t3 4 5\n\n1 2 .\n3 4 5\n");
    // Records of eighty columns without line ends look like rows.
    let records = ["1 2", "3 ."].map(|row| format!("{row:80}")).concat();
    let words = fault(&format!("{records}\n\n{records}"));
    assert!(words.starts_with("line 1, column 81: expected labels within 80 columns"));
}

#[test]
fn uneven_blanks_do_no_harm_where_none_holds_a_label() {
    let texts = [
        "1  2\n 3 .\n\n1\t2\n3 .\n",
        "1\t2 3\n4 5\t6\n7 8 .\n\n  1  2 3\n  4 5  6\n  7 8 .\n",
        "1   2   3\n4   5   .\n\n1\t\t2\t\t3\n4\t\t5\t\t.\n",
        "\t1 2 # front\n        3 .\n\n1 2\n3 .\n",
    ];
    for text in texts {
        assert_eq!(fault(text), "no fault", "{text:?}");
    }
}

// Labels of one digit and of two, right under right or left under left, with blanks of two and three.
#[test]
fn labels_in_columns_stand_evenly_apart() {
    let twice = |rows: &str| format!("{rows}\n\n{rows}\n");
    let even = [
        "   1   2   3\n   4   5   6\n  10  11   .",
        "1   2   3\n4   5   6\n10  11  .",
        " 1  2  3  4\n 5  6  7  8\n 9 10 11 12\n13 14 15  .",
        "1\t2\t3\n4\t5\t6\n10\t11\t.",
    ];
    for rows in even {
        assert_eq!(fault(&twice(rows)), "no fault", "{rows}");
    }
    // A label that is moved aside, aisles, and tabs that other screens show narrower.
    let uneven = [
        "   1   2   3\n   4 5     6\n  10  11   .",
        " 1  2    3\n 4  5    6\n10 11    .",
        "1 2   3 10\n4 5   6 11\n7 8   9  .",
        "1       2       3\n4\t5\t6\n10\t11\t.",
    ];
    for rows in uneven {
        let words = fault(&twice(rows));
        assert!(words.contains("labels evenly apart"), "{rows}: {words}");
    }
}

#[test]
fn bays_side_by_side_are_not_read_as_one() {
    let words = fault("1 2   2 1\n3 .   3 .\n");
    assert!(words.starts_with("line 2, column 10: expected a blank line"));
}

#[test]
fn a_text_that_was_cut_is_refused_or_the_same() {
    let text = "# pallets\r\n1 2 3\r\n4 5 .\r\n\r\n1 2 3\r\n5 4 .\r\n";
    let whole = BayText::read(text.as_bytes()).unwrap().bay().file();
    let mut same = 0;
    for end in 0..text.len() {
        if let Ok(cut) = BayText::read(&text.as_bytes()[..end]) {
            assert_eq!(cut.bay().file(), whole);
            same += 1;
        }
    }
    // Only the last line end can be missing, and no half of it.
    assert_eq!(same, 1);
}

#[test]
fn bytes_that_are_no_text_are_named() {
    let words = |bytes: &[u8]| BayText::read(bytes).err().unwrap().words();
    assert_eq!(
        words(b"1 2\n# Br\xfccke\n"),
        "line 2, column 5: expected text in UTF-8, found the byte 0xfc, which is not UTF-8"
    );
    assert!(words(b"\xff\xfe1\0 \0").ends_with("which is not UTF-8; the text may be UTF-16"));
}

#[test]
fn refusals_find_their_place() {
    let place = |text: &str, number, due: &str| {
        let text = BayText::read(text.as_bytes()).unwrap();
        let words = text.place(Fault::Refused(number)).words();
        assert!(words.starts_with(due), "{words}");
    };
    place("1 2\n. 4\n\n1 2\n. 3\n", 3, "line 2, column 3");
    place("1\n\n1\n", 2, "line 1, column 1");
    // The first label of the tenth row, the tenth of a row, the seventeenth in all.
    let rows = |row: &str, count| [row; 10][..count].join("\n");
    let twice = |rows: String| format!("{rows}\n\n{rows}\n");
    let tall =
        "line 10, column 1: expected a bay of 2 to 16 slots in all, 9 at most in a row or a \
                column, found 10 by 2 (refused 2: ";
    place(&twice(rows("1 2", 10)), 2, tall);
    place(
        &twice(rows("1 2 3 4 5 6 7 8 9 1 2", 1)),
        2,
        "line 1, column 19",
    );
    place(&twice(rows("1 2 3 4 5 6 7 8 9", 2)), 2, "line 2, column 15");
    place("1 2\n. 3\n\n? 4\n. ?\n", 3, "line 4, column 3");
    place("1 .\n\n. 1\n", 5, "refused 5");
    // The gaps of the start come first.
    let another = "line 2, column 3: expected one gap (0 or .) in the bay as it stands, \
                   found another (the first stands in line 1, column 3)";
    place("1 .\n2 0\n\n1 2\n3 1\n", 10, another);
    let none = "line 2, column 1: expected one gap (0 or .) in the bay as it stands, found none";
    place("# no gap\n1 1\n\n. .\n", 10, none);
    let wanted = "line 3, column 1: expected one gap (0 or .) in the bay as it is wanted, found";
    place("1 .\n\n1 1\n", 10, &format!("{wanted} none"));
    let wanted = wanted.replace("column 1", "column 5");
    place("A . A\n\n0 ? .\n", 10, &format!("{wanted} another"));
    place("1 .\n\n? 1\n", 10, "refused 10");
    // The first label of the order that is too many, though others may be missing.
    let again =
        "line 5, column 3: expected each label as often as in the bay as it stands, found 2 \
                 too often: it stands 1 time in the bay and 2 times in the order (refused 11: ";
    place("1 2\n. 3\n\n1 2\n. 2\n", 11, again);
    place("1 2\n. 3\n\n? 2\n? 2\n", 11, again);
    let three =
        "line 3, column 7: expected each label as often as in the bay as it stands, found A \
                 too often: it stands 2 times in the bay and 3 times in the order";
    place("B A A . B\n\nA B A A ?\n", 11, three);
    place("1 1 .\n\n? 1 1\n", 11, "refused 11");
}

#[test]
fn letters_are_numbered_as_they_first_stand() {
    let bay = |text: &str| BayText::read(text.as_bytes()).unwrap().bay();
    let lots = bay("C A\nA 0\n\nA .\nC ?\n");
    assert_eq!(lots.letters, ['C', 'A']);
    assert_eq!(lots.start, [1, 2, 2, 0]);
    assert_eq!(lots.goal, [Some(2), Some(0), Some(1), None]);
    assert_eq!(lots.file(), bay("1 2\n2 0\n\n2 .\n1 ?\n").file());
    assert_eq!(bay("1 1\n2 0\n\n1 1\n2 .\n").letters, []);
    // Without a gap the last letter has no number left; the builder sees that there is no gap.
    assert_eq!(bay("a b\nc d\n\na b\nc d\n").start, [1, 2, 3, 3]);
}

#[test]
fn letters_that_could_be_read_in_two_ways_are_refused() {
    let at = |due: &str, text: &str| {
        let words = fault(text);
        assert!(words.starts_with(due), "{text:?}: {words}");
    };
    let number = "expected a number, as labels are all numbers or all letters, found \"B\"";
    at(&format!("line 1, column 3: {number}"), "1 B .\n\n. 1 B\n");
    at(&format!("line 3, column 5: {number}"), "1 2 .\n\n1 ? B\n");
    let letter = "expected a letter, as labels are all letters or all numbers, found \"1\"";
    at(&format!("line 3, column 3: {letter}"), "A B .\n\nA 1 .\n");
    at(&format!("line 1, column 5: {letter}"), "0 A 1\n\n0 A 1\n");
    let alike = |text: &str, place: &str, one: &str, two: &str| {
        let due = format!(
            "{place}: expected labels that nobody takes for each other, found \"{two}\", which looks \
             like \"{one}\" in line 1, column 1"
        );
        at(&due, text);
    };
    alike("A a .\n\nA a .\n", "line 1, column 3", "A", "a");
    alike("b A .\n\n. A B\n", "line 3, column 5", "b", "B");
    alike("I A l .\n\nA . I l\n", "line 1, column 5", "I", "l");
    alike("0 A o\n\nA o 0\n", "line 1, column 5", "0", "o");
    alike("O A .\n\nA O 0\n", "line 3, column 5", "O", "0");
    assert_eq!(fault("I L o .\n\no . L I\n"), "no fault");
    let stranger =
        "line 4, column 3: expected each label as often as in the bay as it stands, found D \
                    too often: it stands 0 times in the bay and 2 times in the order";
    assert_eq!(fault("A B\nC .\n\nA D\n? D\n"), stranger);
    for word in ["pear", "AB", "A1", "1A", "A.", "A?", "_", "A,"] {
        let text = format!("A {word}\n. B\n\nA {word}\n. B\n");
        at(
            "line 1, column 3: expected a label (a number, a letter, ",
            &text,
        );
    }
    for word in ["\u{c4}", "\u{e9}", "\u{410}", "\u{3b1}", "\u{ff21}"] {
        let text = format!("A {word}\n. B\n\nA {word}\n. B\n");
        at(
            "line 1, column 3: expected only digits, letters from A to Z, ",
            &text,
        );
    }
}

#[test]
fn comments_beside_letters_begin_with_a_word() {
    let texts = [
        "# A apples, B pears\nA B # front\n# the back\nB .\n\n# wanted\nB A\nB .\n",
        "# a bay\nA B\nB .\n\nB A\nB .\n",
    ];
    for text in texts {
        assert_eq!(fault(text), "no fault", "{text:?}");
    }
    let behind = "line 1, column 5: expected a comment that begins with a word";
    assert!(fault("A B # C\nB . # A\n\nB A\nB .\n").starts_with(behind));
    assert!(fault("A B # a wide one\nB .\n\nB A\nB .\n").starts_with(behind));
    assert_eq!(fault("1 2 # a wide one\n3 .\n\n2 1\n3 .\n"), "no fault");
    let row = "line 2, column 1: expected a comment in words, as this could be a row";
    assert!(fault("A B\n# C D\nB .\n\nB A\nB .\n").starts_with(row));
    let between = "line 2, column 1: expected words in a comment between two rows";
    assert!(fault("A B\n# a wall\nB .\n\nB A\nB .\n").starts_with(between));
}

//! Which characters show themselves, and how the others are named.

/// What parts labels.
pub fn is_blank(character: char) -> bool {
    matches!(character, ' ' | '\t')
}

/// Whether a character is seen, has its own place and leaves all others in theirs.
pub fn is_plain(character: char) -> bool {
    matches!(character, ' '..='~') || is_sign(character) || is_letter(character)
}

// Signs of Latin-1, dashes, quotes, currencies, arrows and sums, without the blanks and the marks
// of direction that stand among them.
fn is_sign(character: char) -> bool {
    matches!(
        character,
        '\u{a1}'..='\u{ac}'
            | '\u{ae}'..='\u{ff}'
            | '\u{2010}'..='\u{2027}'
            | '\u{2030}'..='\u{205e}'
            | '\u{20a0}'..='\u{20bf}'
            | '\u{2190}'..='\u{22ff}'
    )
}

fn is_letter(character: char) -> bool {
    character.is_alphanumeric() && !is_right_to_left(character) && !is_filler(character)
}

// One such letter turns its whole line round on the screen, labels and all.
fn is_right_to_left(character: char) -> bool {
    matches!(
        character,
        '\u{590}'..='\u{8ff}'
            | '\u{fb1d}'..='\u{fdff}'
            | '\u{fe70}'..='\u{feff}'
            | '\u{10800}'..='\u{10fff}'
            | '\u{1e800}'..='\u{1efff}'
    )
}

// Letters of Hangul that show nothing.
fn is_filler(character: char) -> bool {
    matches!(character, '\u{115f}' | '\u{1160}' | '\u{3164}' | '\u{ffa0}')
}

/// A character by number, with its name where nothing is seen of it and it is a usual one.
pub fn named(character: char) -> String {
    let number = format!("U+{:04X}", character as u32);
    if is_plain(character) {
        return format!("\"{character}\" ({number})");
    }
    match name(character) {
        Some(name) => format!("{number} ({name})"),
        None => number,
    }
}

fn name(character: char) -> Option<&'static str> {
    Some(match character {
        '\0' => "null; the text may be UTF-16",
        '\u{8}' => "backspace",
        '\u{b}' => "vertical tab",
        '\u{c}' => "form feed",
        '\r' => "carriage return without a line feed",
        '\u{1b}' => "escape",
        '\u{85}' => "next line",
        '\u{a0}' | '\u{202f}' => "no-break space",
        '\u{ad}' => "soft hyphen",
        '\u{200b}' => "zero width space",
        '\u{200e}' | '\u{200f}' | '\u{202a}'..='\u{202e}' | '\u{2066}'..='\u{2069}' => {
            "a mark that changes the direction of the text"
        }
        '\u{2028}' => "line separator",
        '\u{2029}' => "paragraph separator",
        '\u{3000}' => "ideographic space",
        '\u{feff}' => "byte order mark",
        c if is_right_to_left(c) => "its line would be shown from right to left",
        _ => return None,
    })
}

#[cfg(test)]
mod tests {
    use super::*;

    #[test]
    fn plain_characters_are_seen_and_stay_in_place() {
        for character in "a9 #~é×ßλЖ–“”…€→中ก".chars() {
            assert!(is_plain(character), "{character:?}");
        }
    }

    #[test]
    fn others_are_not_plain() {
        let controls = "\0\u{7}\u{8}\t\n\u{b}\u{c}\r\u{1b}\u{7f}\u{85}";
        let blanks =
            "\u{a0}\u{1680}\u{2000}\u{200a}\u{2028}\u{2029}\u{202f}\u{205f}\u{2800}\u{3000}";
        let formats = "\u{ad}\u{180e}\u{200b}\u{200c}\u{200d}\u{2060}\u{2062}\u{206f}\u{feff}\u{fff9}\u{e0001}";
        let directions =
            "\u{61c}\u{200e}\u{200f}\u{202a}\u{202e}\u{2066}\u{2069}\u{5d0}\u{627}\u{660}";
        let combining = "\u{300}\u{338}\u{34f}\u{20dd}\u{fe0f}\u{1d173}\u{e0100}";
        let fillers = "\u{115f}\u{1160}\u{3164}\u{ffa0}";
        let unassigned = "\u{378}\u{590}\u{e000}\u{fffc}\u{fffd}\u{f0000}\u{10ffff}";
        let others = [
            controls, blanks, formats, directions, combining, fillers, unassigned,
        ]
        .concat();
        for character in others.chars() {
            assert!(!is_plain(character), "{character:?}");
        }
    }

    #[test]
    fn names_say_what_is_not_seen() {
        assert_eq!(named('\u{b}'), "U+000B (vertical tab)");
        assert_eq!(named('\u{1f}'), "U+001F");
        assert_eq!(named('é'), "\"é\" (U+00E9)");
        assert_eq!(
            named('\u{5d0}'),
            "U+05D0 (its line would be shown from right to left)"
        );
    }
}

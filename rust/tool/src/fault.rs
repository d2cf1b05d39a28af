//! What can go wrong, in words and by number.

use crate::characters::is_plain;
use crate::json::Json;
use crate::pair_list::Culprit;
use crate::place::Place;

/// How much of a long line is shown, and how much of it before the place.
const WIDEST_PART: usize = 70;
const MOST_BEFORE: usize = 60;
const TEXT: &str = "this looks like text; florumeja ask takes a bay as text";
const ONE_MORE_VALUE: &str = "in the built task each variable has one value more, \"unknown\"";
const NO_LONGER_IDLE: &str =
    "an operator that was idle for want of a possible value is not idle in \
                              the built task, where \"unknown\" is always possible";
const MEND: &str = "florumeja mend TASK -o FILE writes the task without the pairs that cannot stay";
const NOT_MENDED: &str = "florumeja mend mends task files, not partial files";

/// Why no answer was given.
#[derive(Debug)]
pub enum Fault {
    /// The text of a bay is at fault at one place.
    Text(TextFault),
    /// The library refused, by this number.
    Refused(u32),
    /// The same, and what may help.
    Explained(u32, String),
    /// The library refused a binary file at this place, and what may help.
    Placed(Box<Place>, Option<String>),
    /// The library refused a pair list, and this pair is behind it.
    Pair(Culprit),
    /// Files, the command line, or answers that do not fit together.
    Failure(String),
}

/// One place in a bay's text, what was expected there and what stands there.
#[derive(Debug)]
pub struct TextFault {
    pub line: usize,
    pub column: usize,
    pub expected: String,
    pub found: String,
    pub source: String,
    /// The library's refusal, where it was the library that found the fault.
    pub refusal: Option<u32>,
}

impl Fault {
    /// Points out that the refused bytes look like text, if they do.
    pub fn about(self, bytes: &[u8]) -> Fault {
        let typed = |character: char| is_plain(character) || character.is_ascii_whitespace();
        let text = std::str::from_utf8(bytes);
        match text.is_ok_and(|text| !text.is_empty() && text.chars().all(typed)) {
            true => self.explained(TEXT),
            false => self,
        }
    }

    /// Says of a partial file that limits and pairs are judged on the task that is built of it.
    pub fn of_partial(self) -> Fault {
        match self.refusal() {
            Some(2) => self.explained(ONE_MORE_VALUE),
            Some(6) => self.explained(NOT_MENDED),
            Some(7) => self.explained(&format!("{NO_LONGER_IDLE}; {NOT_MENDED}")),
            _ => self,
        }
    }

    /// Adds to a refusal what may help, unless something does already.
    pub fn explained(self, words: &str) -> Fault {
        let words = words.to_string();
        match self {
            Fault::Refused(number) => Fault::Explained(number, words),
            Fault::Placed(place, None) => Fault::Placed(place, Some(words)),
            other => other,
        }
    }

    /// One line that says what is wrong.
    pub fn words(&self) -> String {
        match self {
            Fault::Text(fault) => fault.words(),
            Fault::Refused(number) => refusal_words(*number),
            Fault::Explained(number, words) => format!("{} ({words})", refusal_words(*number)),
            Fault::Placed(place, help) => {
                let help = help.as_ref().map(|words| format!(" ({words})"));
                let refused = format!("refused {}: {}", place.refusal, place.words());
                refused + &help.unwrap_or_default()
            }
            Fault::Pair(culprit) => {
                let refusal = refusal_words(culprit.refusal());
                format!("{refusal} ({}; {MEND})", culprit.words())
            }
            Fault::Failure(words) => words.clone(),
        }
    }

    // The number, where it was the library that refused.
    fn refusal(&self) -> Option<u32> {
        match self {
            Fault::Text(fault) => fault.refusal,
            Fault::Refused(number) | Fault::Explained(number, _) => Some(*number),
            Fault::Placed(place, _) => Some(place.refusal),
            Fault::Pair(culprit) => Some(culprit.refusal()),
            Fault::Failure(_) => None,
        }
    }

    /// The word that leads a line about it.
    pub fn heading(&self) -> &'static str {
        match self {
            Fault::Failure(_) => "ERROR",
            _ => "REFUSED",
        }
    }

    /// All that is known, for a person: the words, then the line of the text or the bytes around the
    /// place, with a mark below.
    pub fn message(&self, name: &str) -> String {
        let pointer = match self {
            Fault::Text(fault) => fault.pointer(),
            Fault::Placed(place, _) => place.pointer().to_string(),
            _ => String::new(),
        };
        format!("{name}: {}{pointer}", self.words())
    }

    /// The same for a program.
    pub fn json(&self, name: &str) -> Json {
        let answer = self.heading().to_lowercase();
        let mut fields = vec![
            ("file", Json::text(name)),
            ("answer", Json::Text(answer)),
            ("message", Json::Text(self.words())),
        ];
        let refusal = self.refusal().map(refusal_json);
        fields.extend(refusal.map(|refusal| ("refusal", refusal)));
        match self {
            Fault::Text(fault) => fields.extend(fault.fields()),
            Fault::Placed(place, _) => fields.extend(place.fields()),
            Fault::Pair(culprit) => fields.push(("pair", culprit.json())),
            Fault::Refused(_) | Fault::Explained(..) | Fault::Failure(_) => {}
        }
        Json::Object(fields)
    }
}

impl TextFault {
    fn words(&self) -> String {
        let TextFault { line, column, .. } = self;
        let (expected, found) = (&self.expected, &self.found);
        let place = format!("line {line}, column {column}: expected {expected}, found {found}");
        match self.refusal {
            Some(number) => format!("{place} ({})", refusal_words(number)),
            None => place,
        }
    }

    // Shows the line itself, or its part around the place, so that nobody has to count columns.
    fn pointer(&self) -> String {
        let left_out = self.column.saturating_sub(MOST_BEFORE);
        let part = self.source.chars().skip(left_out).take(WIDEST_PART);
        let part: String = part.map(plain).collect();
        if part.trim().is_empty() {
            return String::new();
        }
        let blanks = " ".repeat(self.column - 1 - left_out);
        format!("\n    {}\n    {blanks}^", part.trim_end())
    }

    fn fields(&self) -> Vec<(&'static str, Json)> {
        vec![
            ("line", Json::number(self.line)),
            ("column", Json::number(self.column)),
            ("expected", Json::text(&self.expected)),
            ("found", Json::text(&self.found)),
        ]
    }
}

/// A refusal by number and in words.
pub fn refusal_words(number: u32) -> String {
    let meaning = match number {
        1 => "input ends inside what is due",
        2 => "the count of variables, a size, the count of features, or a bay dimension breaks its limit",
        3 => "a value, variable, entry count, feature, label or mark is outside its range, a list of new values or marks has the wrong length, or a new file does not begin with 0",
        4 => "entries, pairs or weights do not increase",
        5 => "bytes are left over",
        6 => "the start holds a listed pair",
        7 => "the pairs are not closed under an operator",
        8 => "lent room is too small",
        9 => "a workspace is not well formed",
        10 => "a bay has no gap or more than one",
        11 => "start and goal do not hold each label equally often",
        12 => "a number is not in its shortest form",
        13 => "the third byte of a number says that more follows",
        _ => "a number that this tool has no words for",
    };
    format!("refused {number}: {meaning}")
}

fn refusal_json(number: u32) -> Json {
    Json::Object(vec![
        ("number", Json::number(number as usize)),
        ("words", Json::Text(refusal_words(number))),
    ])
}

fn plain(character: char) -> char {
    match character {
        '\t' => ' ',
        c if is_plain(c) => c,
        _ => '?',
    }
}

//! Why a pair cannot stay: the start holds it, or an operator of the file breaks it.

use super::{Naming, Pair};
use crate::features::Atom;
use crate::json::Json;
use crate::words::joined;

/// So many entries of an operator are told in words.
const MOST_ENTRIES: usize = 4;

#[derive(Clone, PartialEq, Eq, Debug)]
pub enum Cause {
    Start,
    Operator(Operator),
}

/// An operator, by its place in the file, from 0.
#[derive(Clone, PartialEq, Eq, Debug)]
pub struct Operator {
    pub number: usize,
    pub entries: Vec<Entry>,
}

/// One variable of an operator, with its value before and after.
#[derive(Clone, Copy, PartialEq, Eq, Debug)]
pub struct Entry {
    pub variable: usize,
    pub before: usize,
    pub after: usize,
}

impl Cause {
    pub fn words(&self, naming: &Naming) -> String {
        match self {
            Cause::Start => "the start holds it".to_string(),
            Cause::Operator(operator) => operator.words(naming),
        }
    }

    /// The members that tell a program why.
    pub fn fields(&self, naming: &Naming) -> Vec<(&'static str, Json)> {
        match self {
            Cause::Start => vec![("reason", Json::text("start"))],
            Cause::Operator(operator) => {
                let entries = operator.entries.iter();
                let entries = entries.map(|entry| entry.json(naming)).collect();
                vec![
                    ("reason", Json::text("operator")),
                    ("operator", Json::number(operator.number)),
                    ("entries", Json::List(entries)),
                ]
            }
        }
    }

    /// The refusal that it stands behind.
    pub fn refusal(&self) -> u32 {
        match self {
            Cause::Start => 6,
            Cause::Operator(_) => 7,
        }
    }
}

impl Operator {
    /// Whether it leads to one of the two atoms; the other it may find.
    pub fn leads_to(&self, pair: &Pair) -> bool {
        let mut afters = self.entries.iter().map(Entry::led_to);
        afters.any(|atom| atom == pair.one || atom == pair.two)
    }

    fn words(&self, naming: &Naming) -> String {
        let shown = self.entries.iter().take(MOST_ENTRIES);
        let mut takes: Vec<String> = shown.map(|entry| entry.words(naming)).collect();
        if self.entries.len() > MOST_ENTRIES {
            takes.push(format!("{} more", self.entries.len() - MOST_ENTRIES));
        }
        let (number, takes) = (self.number, joined(&takes));
        format!("operator {number}, which takes {takes}, breaks it")
    }
}

impl Entry {
    fn led_to(&self) -> Atom {
        Atom::new(self.variable, self.after)
    }

    fn words(&self, naming: &Naming) -> String {
        let variable = naming.variable(self.variable);
        let (before, after) = (naming.value(self.before), naming.value(self.after));
        format!("{variable} from {before} to {after}")
    }

    fn json(&self, naming: &Naming) -> Json {
        let mut fields = naming.fields(self.variable);
        fields.push(("before", Json::number(self.before)));
        fields.push(("after", Json::number(self.after)));
        Json::Object(fields)
    }
}

#[cfg(test)]
mod tests {
    use super::*;

    fn operator(entries: usize) -> Cause {
        let entry = |variable| Entry {
            variable,
            before: 0,
            after: 1,
        };
        Cause::Operator(Operator {
            number: 5,
            entries: (0..entries).map(entry).collect(),
        })
    }

    #[test]
    fn a_long_operator_is_cut() {
        let words = |entries| operator(entries).words(&Naming::Variables);
        assert_eq!(
            words(1),
            "operator 5, which takes variable 0 from 0 to 1, breaks it"
        );
        assert_eq!(
            words(2),
            "operator 5, which takes variable 0 from 0 to 1 and variable 1 from 0 to 1, breaks it"
        );
        assert!(words(4).ends_with("and variable 3 from 0 to 1, breaks it"));
        assert!(words(5).ends_with("variable 3 from 0 to 1 and 1 more, breaks it"));
    }
}

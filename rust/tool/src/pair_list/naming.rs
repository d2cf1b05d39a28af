//! How the atoms of a pair are named: by variable and value, or, of a bay, by slot and label.

use crate::bay::GAP;
use crate::fault::Fault;
use crate::features::Atom;
use crate::json::Json;
use crate::words::counted;

/// The rows and columns of a bay, as the command line gives them.
#[derive(Clone, Copy, PartialEq, Eq, Debug)]
pub struct Shape {
    rows: usize,
    columns: usize,
}

impl Shape {
    /// Reads rows and columns as in 2x3: a digit each, nothing else, and 2 to 16 slots in all.
    pub fn read(words: &str) -> Option<Shape> {
        let (rows, columns) = words.split_once('x')?;
        let (rows, columns) = (digit(rows)?, digit(columns)?);
        (2..=16)
            .contains(&(rows * columns))
            .then_some(Shape { rows, columns })
    }

    fn slots(&self) -> usize {
        self.rows * self.columns
    }
}

fn digit(word: &str) -> Option<usize> {
    let digit = word.parse().ok()?;
    (word.len() == 1).then_some(digit)
}

pub enum Naming {
    Variables,
    Slots(Shape),
}

impl Naming {
    /// A task file does not say that it is a bay's, so slots are named only if it can be one of the
    /// shape that was given: a variable for each slot, with a value for each label.
    pub fn new(shape: Option<Shape>, sizes: &[usize]) -> Result<Naming, Fault> {
        match shape {
            None => Ok(Naming::Variables),
            Some(shape) if sizes == vec![shape.slots(); shape.slots()] => Ok(Naming::Slots(shape)),
            Some(Shape { rows, columns }) => Err(Fault::Failure(format!(
                "--bay {rows}x{columns} does not fit: such a bay has {slots} variables of {slots} \
                 values each, and the task has {}",
                described(sizes),
                slots = rows * columns
            ))),
        }
    }

    pub fn variable(&self, variable: usize) -> String {
        match self.slot(variable) {
            None => format!("variable {variable}"),
            Some((row, column)) => format!("row {row} column {column}"),
        }
    }

    pub fn value(&self, value: usize) -> String {
        match (self, value) {
            (Naming::Slots(_), GAP) => "gap".to_string(),
            _ => value.to_string(),
        }
    }

    pub fn atom(&self, atom: Atom) -> String {
        let variable = self.variable(atom.variable);
        format!("{variable} = {}", self.value(atom.value))
    }

    /// What names are counted from, for whoever looks them up in the file.
    pub fn counted(&self) -> &'static str {
        match self {
            Naming::Variables => "pairs, variables, values and operators counted from 0",
            Naming::Slots(_) => {
                "pairs and operators counted from 0, rows and columns counted from 1"
            }
        }
    }

    pub fn json(&self, atom: Atom) -> Json {
        let mut fields = self.fields(atom.variable);
        fields.push(("value", Json::number(atom.value)));
        Json::Object(fields)
    }

    /// The members that name a variable to a program.
    pub fn fields(&self, variable: usize) -> Vec<(&'static str, Json)> {
        let mut fields = vec![("variable", Json::number(variable))];
        if let Some((row, column)) = self.slot(variable) {
            fields.push(("row", Json::number(row)));
            fields.push(("column", Json::number(column)));
        }
        fields
    }

    // The row and the column of a slot, from 1, as the lines of a bay's text are counted.
    fn slot(&self, variable: usize) -> Option<(usize, usize)> {
        match self {
            Naming::Variables => None,
            Naming::Slots(Shape { columns, .. }) => {
                Some((variable / columns + 1, variable % columns + 1))
            }
        }
    }
}

fn described(sizes: &[usize]) -> String {
    let variables = counted(sizes.len(), "variable");
    let sizes: Vec<String> = sizes.iter().map(usize::to_string).collect();
    format!("{variables} of {} values", sizes.join(", "))
}

#[cfg(test)]
mod tests {
    use super::*;

    fn shape(rows: usize, columns: usize) -> Shape {
        Shape { rows, columns }
    }

    #[test]
    fn a_shape_is_two_digits_and_nothing_else() {
        assert_eq!(Shape::read("2x3"), Some(shape(2, 3)));
        assert_eq!(Shape::read("1x9"), Some(shape(1, 9)));
        assert_eq!(Shape::read("4x4"), Some(shape(4, 4)));
        assert_eq!(Shape::read("8x2"), Some(shape(8, 2)));
        let bad = [
            "",
            "3",
            "x",
            "3x",
            "x3",
            "3X3",
            "3 x 3",
            "3x3x1",
            "+3x3",
            "03x3",
            "1x1",
            "2x9",
            "1x16",
            "4x5",
            "0x9",
            "\u{663}x3",
        ];
        for words in bad {
            assert_eq!(Shape::read(words), None, "{words}");
        }
    }

    #[test]
    fn slots_are_named_for_a_task_that_has_them() {
        let naming = Naming::new(Some(shape(2, 3)), &[6; 6]).unwrap();
        let named = [(0, 0), (2, 1), (3, 5), (5, 4)].map(|(v, x)| naming.atom(Atom::new(v, x)));
        let due = [
            "row 1 column 1 = gap",
            "row 1 column 3 = 1",
            "row 2 column 1 = 5",
            "row 2 column 3 = 4",
        ];
        assert_eq!(named, due);
        assert_eq!(
            naming.json(Atom::new(5, 0)).to_string(),
            r#"{"variable": 5, "row": 2, "column": 3, "value": 0}"#
        );
    }

    #[test]
    fn a_task_of_another_shape_is_no_such_bay() {
        for sizes in [&[6; 5][..], &[6, 6, 6, 6, 6, 5], &[7; 6], &[]] {
            let fault = Naming::new(Some(shape(2, 3)), sizes).err().unwrap();
            assert!(
                fault.words().starts_with("--bay 2x3 does not fit"),
                "{sizes:?}"
            );
        }
        let naming = Naming::new(None, &[6; 5]).unwrap();
        assert_eq!(naming.atom(Atom::new(3, 0)), "variable 3 = 0");
    }
}

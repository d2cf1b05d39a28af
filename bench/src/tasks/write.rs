//! Writes a task file from its parts.

use crate::plain::{write_list, write_number, write_numbers};

/// An entry: variable, before, after.
pub type Entry = (usize, usize, usize);

pub struct Parts {
    pub sizes: Vec<usize>,
    pub start: Vec<usize>,
    pub goal: Vec<usize>,
    pub pairs: Vec<usize>,
    pub operators: Vec<Vec<Entry>>,
}

impl Parts {
    pub fn file(&self) -> Vec<u8> {
        let mut file = Vec::new();
        write_list(&mut file, &self.sizes);
        write_numbers(&mut file, &self.start);
        write_numbers(&mut file, &self.goal);
        write_list(&mut file, &self.pairs);
        write_number(&mut file, self.operators.len());
        for entries in &self.operators {
            write_operator(&mut file, entries);
        }
        file
    }
}

fn write_operator(file: &mut Vec<u8>, entries: &[Entry]) {
    write_number(file, entries.len());
    for &(variable, before, after) in entries {
        write_numbers(file, &[variable, before, after]);
    }
}

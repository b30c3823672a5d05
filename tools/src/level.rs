//! The level that a comparison is asked for: a label of the old design, by its number or by its name.

use caisson_tools::{Names, Table};

pub enum Level {
    Number(usize),
    Name(String),
}

impl Level {
    /// What is neither is known before a file is read.
    pub fn of(text: &str) -> Result<Level, String> {
        let letters = |one: u8| one.is_ascii_alphanumeric() || one == b'_';
        let digits = text.bytes().all(|one| one.is_ascii_digit());
        let starts = text.starts_with(|one: char| one.is_ascii_digit());
        match text.parse() {
            Ok(number) if digits => Ok(Level::Number(number)),
            _ if !text.is_empty() && !starts && text.bytes().all(letters) => {
                Ok(Level::Name(text.to_string()))
            }
            _ => Err(format!(
                "--level {text}: a level is the number or the name of a label"
            )),
        }
    }

    /// Of the old design, which is that of the file.
    pub fn label(&self, file: &str, old: &Table, names: Option<&Names>) -> Result<u8, String> {
        let last = old.rows.len() - 1;
        match (self, names) {
            (Level::Number(number), _) if *number <= last => Ok(*number as u8),
            (Level::Number(number), _) => Err(format!(
                "{file}: level {number} is no label: the design has labels 0 to {last}"
            )),
            (Level::Name(name), Some(names)) => names.label_named(name).ok_or_else(|| {
                let labels: Vec<&str> = (0..=last).map(|label| names.label(label as u8)).collect();
                let labels = labels.join(", ");
                format!("{file}: level {name} is no label: the design has labels {labels}")
            }),
            (Level::Name(name), None) => Err(format!(
                "{file}: level {name} is not known: no names file is beside the table, \
                 so that a level is the number of a label, 0 to {last}"
            )),
        }
    }
}

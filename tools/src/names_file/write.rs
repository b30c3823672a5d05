//! A names file as text.

use super::{NamesFile, FIRST, VERSION};
use crate::sha256;

impl NamesFile {
    /// For the table of this image.
    pub fn text(&self, image: &[u8]) -> String {
        let counts = self.kinds.each_ref().map(Vec::len);
        let counted: Vec<String> = (self.family.kinds().into_iter().zip(counts))
            .map(|(kind, count)| format!("{kind}s {count}"))
            .collect();
        let (sum, counted) = (sha256::digits(image), counted.join(" "));
        let mut text = format!("{FIRST}{VERSION} sha256 {sum} {counted}\n");
        text += &format!("source {}\n", self.source);
        let firsts = self.family.first_numbers(counts);
        let kinds = self.family.kinds().into_iter().zip(firsts);
        for ((kind, first), entries) in kinds.zip(&self.kinds) {
            for (number, entry) in entries.iter().enumerate() {
                let number = first + number;
                text += &format!("{kind} {number} {} {}\n", entry.name, entry.line);
            }
        }
        for (state, own) in self.parameters.iter().enumerate() {
            for (index, entry) in own.iter().enumerate() {
                text += &format!("parameter {state} {index} {} {}\n", entry.name, entry.line);
            }
        }
        summed(text)
    }
}

/// The lines of a names file with the last one behind them, which has the sum of all bytes before it.
pub fn summed(lines: String) -> String {
    let sum = sha256::digits(lines.as_bytes());
    format!("{lines}sum {sum}\n")
}

//! Warnings as they are read: of a text with the line and a marker, of a table by the record.

use super::Warning;
use crate::names::Names;
use crate::positions::Positions;
use crate::table::place::Place;
use crate::text::excerpt::excerpt;
use crate::text::fault::Position;

pub fn of_text(file: &str, source: &str, positions: &Positions, warnings: &[Warning]) -> String {
    let each = warnings.iter().map(|warning| {
        let at = positions.at(warning.place);
        let Position { line, column } = at;
        let words = &warning.words;
        let lines = excerpt(source, at);
        format!("{file}:{line}:{column}: warning: {words}\n{lines}")
    });
    each.collect()
}

pub fn of_table(file: &str, names: &Names, warnings: &[Warning]) -> String {
    let each = warnings.iter().map(|warning| {
        let record = match warning.record {
            Place::Register(number) => format!("register {}", names.register(number as u8)),
            Place::State(number) => format!("state {}", names.state(number as u8)),
            _ => unreachable!("a warning is about a register or a state"),
        };
        format!("{file}: {record}: warning: {}\n", warning.words)
    });
    each.collect()
}

//! A verdict of the library in words: the rule, the place, and what stands there.

mod children;
mod flow;
mod lattice;
mod level;
mod parameters;
pub(crate) mod place;
mod ports;
mod registers;
pub(crate) mod rules;
pub(crate) mod shape;
pub(crate) mod source;
mod uses;

use crate::library::Answer;
use crate::named::Named;
use crate::names::Names;
use crate::positions::Positions;
use crate::table::old;
use crate::table::read::read;

/// The verdict on a table.
pub fn explain(image: &[u8], answer: Answer) -> String {
    explain_named(image, None, answer)
}

/// With the names of the table, where they are known.
pub fn explain_named(image: &[u8], names: Option<&Names>, answer: Answer) -> String {
    let words = verdict(image, names, answer);
    match old::advice(image) {
        Some(advice) => format!("{words}\nIt {advice}.\n"),
        None => words,
    }
}

/// The verdict on the table of a text, with the line of the text that has what stands at the place.
pub fn explain_text(text: &str, image: &[u8], positions: &Positions, answer: Answer) -> String {
    let names = &positions.names;
    let words = verdict(image, Some(names), answer);
    let place = read(image).map(|table| {
        let table = &table;
        rules::place(&Named { table, names }, answer.number, answer.place)
    });
    match place {
        Ok(Some(place)) => format!("{words}\n{}", source::line(text, positions.at(place))),
        _ => words,
    }
}

fn verdict(image: &[u8], names: Option<&Names>, answer: Answer) -> String {
    let Answer { number, place, .. } = answer;
    if number == 0 {
        return "accepted\n".to_string();
    }
    let rule = rules::rule(number);
    let described = place::describe(image, names, number, place);
    format!("refused by {number} at place {place}\n\n{rule}\n\n{described}")
}

//! A text assembled and judged in one go, as compilers do: every fault with its place, or the library's refusal where
//! it stands in the text, in the text's names.

mod gates;
mod reasons;

use crate::explain::place::describe;
use crate::explain::rules;
use crate::explain::shape::transfers;
use crate::library::{self, Answer};
use crate::named::Named;
use crate::numbering;
use crate::positions::Positions;
use crate::table::node::Command;
use crate::table::place::Place;
use crate::table::Table;
use crate::text;
use crate::text::excerpt::excerpt;
use crate::text::fault::Position;
use crate::text::faults::Faults;

const BECAUSE: &str = "Because:\n";

/// What came of it.
pub struct Checked {
    pub answer: Answer,
    /// For the user.
    pub words: String,
}

/// Of a design or a gate table, as its first word says. The path is for the words alone.
pub fn check(path: &str, source: &str) -> Result<Checked, Faults> {
    if crate::gates::is_text(source) {
        return gates::check(path, source);
    }
    let design = text::parse(source)?;
    let (table, positions) = numbering::number(&design)?;
    let image = table.image();
    let answer = library::check(&image);
    let words = match answer.number {
        0 => accepted(path, &counts(&table)),
        number => {
            let names = &positions.names;
            let table = Named {
                table: &table,
                names,
            };
            let place = rules::place(&table, number, answer.place);
            let at = place.map(|place| positions.at(pointed(&table, number, place)));
            let described = match place.and_then(|place| reasons::reasons(&table, number, place)) {
                Some(reason) => format!("{BECAUSE}    {reason}\n"),
                None => describe(&image, Some(names), number, answer.place),
            };
            let because = with_lines(because(&described), &positions);
            refused(path, source, at, number, &because)
        }
    };
    Ok(Checked { answer, words })
}

/// What is shown of a place: of a sequence whose first part transfers the command that does so, which may stand far
/// behind where a long list begins.
fn pointed(table: &Named, number: u32, place: Place) -> Place {
    let command = |number: u16| Command::of(table.commands[usize::from(number)]);
    let Place::Command(sequence) = place else {
        return place;
    };
    match command(sequence as u16) {
        Some(Command::Sequence { mut first, .. }) if number == 8 && transfers(table, first) => {
            while let Some(Command::Sequence { second, .. }) = command(first) {
                first = second;
            }
            Place::Command(usize::from(first))
        }
        _ => place,
    }
}

fn accepted(path: &str, counts: &[(usize, &str)]) -> String {
    let counts = counts.iter().map(|(count, what)| match count {
        1 => format!(", 1 {what}"),
        count => format!(", {count} {what}s"),
    });
    format!("{path}: accepted{}\n", counts.collect::<String>())
}

fn counts(table: &Table) -> [(usize, &'static str); 5] {
    [
        (table.rows.len(), "label"),
        (table.registers.len(), "register"),
        (table.states.len(), "state"),
        (table.commands.len(), "command"),
        (table.expressions.len(), "expression"),
    ]
}

/// Where nothing says why, the rule stands in full.
fn refused(path: &str, source: &str, at: Option<Position>, number: u32, because: &str) -> String {
    let rule = match because.is_empty() {
        true => rules::rule(number),
        false => rules::wrong(number),
    };
    match at {
        Some(at) => {
            let (line, column) = (at.line, at.column);
            let lines = excerpt(source, at);
            format!("{path}:{line}:{column}: refused by {number}: {rule}\n{lines}{because}")
        }
        None => format!("{path}: refused by {number}: {rule}\n{because}"),
    }
}

/// Why the rule fails, as `explain` says it, with the heading.
fn because(described: &str) -> &str {
    described.find(BECAUSE).map_or("", |at| &described[at..])
}

/// `command 6` is the line that has it.
fn with_lines(words: &str, positions: &Positions) -> String {
    let mut pieces = words.split("command ");
    let mut text = pieces.next().unwrap_or_default().to_string();
    for piece in pieces {
        let end = piece.find(|one: char| !one.is_ascii_digit());
        let (number, rest) = piece.split_at(end.unwrap_or(piece.len()));
        match number.parse() {
            Ok(number) => {
                let at = positions.at(Place::Command(number));
                text += &format!("line {}{rest}", at.line);
            }
            Err(_) => text += &format!("command {piece}"),
        }
    }
    text
}

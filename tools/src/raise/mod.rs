//! The least accepted raising of a design, which is the proved library's, and what is said of it.

mod chain;
mod flows;
mod relabel;
mod unmet;

use crate::explain;
use crate::explain::rules;
use crate::library::{self, Answer};
use crate::names::Names;
use crate::table::read::read;
use crate::table::Table;
use crate::text::faults::Faults;
use crate::{numbering, text};
use unmet::Source;

/// What came of it.
pub struct Raised {
    pub answer: Answer,
    /// For the user.
    pub words: String,
    /// The raised table; empty where it was refused.
    pub image: Vec<u8>,
}

pub fn raise_table(image: &[u8]) -> Raised {
    raise_named(image, None)
}

/// With the names of the table, where they are known.
pub fn raise_named(image: &[u8], names: Option<&Names>) -> Raised {
    let (answer, raised) = by_library(image);
    let words = match (answer.number, read(image)) {
        (0 | 18, Ok(table)) => {
            let numbers = Names::of_table(&table);
            let names = names.unwrap_or(&numbers);
            words(&table, &raised, names, answer, &Source::Table)
        }
        _ => explain::explain_named(image, names, answer),
    };
    Raised {
        answer,
        words,
        image: raised,
    }
}

/// Gives the raised text too: the text as it was but for the labels that rose. It is empty where the
/// design was refused.
pub fn raise_text(source: &str) -> Result<(Raised, String), Faults> {
    let design = text::parse(source)?;
    let (table, positions) = numbering::number(&design)?;
    let image = table.image();
    let (answer, raised) = by_library(&image);
    let mut new_text = String::new();
    let words = match answer.number {
        0 | 18 => {
            let names = Names::of_text(&design);
            if answer.number == 0 {
                new_text = relabel::relabelled(source, &design, &labels(&raised), &names);
            }
            let place = Source::Text(source, &positions);
            words(&table, &raised, &names, answer, &place)
        }
        _ => explain::explain_text(source, &image, &positions, answer),
    };
    let raised = Raised {
        answer,
        words,
        image: raised,
    };
    Ok((raised, new_text))
}

fn by_library(image: &[u8]) -> (Answer, Vec<u8>) {
    let mut out = vec![0; image.len()];
    let answer = library::raise(image, &mut out);
    if answer.number != 0 {
        out.clear();
    }
    (answer, out)
}

/// The labels of the registers of a table that the library has written.
fn labels(image: &[u8]) -> Vec<u8> {
    let table = read(image).unwrap_or_default();
    table
        .registers
        .iter()
        .map(|register| register.label)
        .collect()
}

/// Of an answer of 0 or 18.
fn words(table: &Table, raised: &[u8], names: &Names, answer: Answer, source: &Source) -> String {
    if answer.number != 0 {
        let Answer { number, place, .. } = answer;
        let rule = rules::rule(number);
        let why = unmet::describe(table, names, source);
        return format!("refused by {number} at place {place}\n\n{rule}\n\n{why}");
    }
    let rose = rose(table, &labels(raised), names);
    match rose.len() {
        0 => "accepted as it is: no label has to rise\n".to_string(),
        1 => format!("accepted with 1 label raised:\n{}", rose.concat()),
        count => format!("accepted with {count} labels raised:\n{}", rose.concat()),
    }
}

/// A line for each register whose label is another.
fn rose(table: &Table, labels: &[u8], names: &Names) -> Vec<String> {
    let registers = table.registers.iter().zip(labels).enumerate();
    registers
        .filter(|(_, (register, label))| register.label != **label)
        .map(|(number, (register, label))| {
            let (from, to) = (names.label(register.label), names.label(*label));
            format!(
                "    {}: from {from} to {to}\n",
                names.register(number as u8)
            )
        })
        .collect()
}

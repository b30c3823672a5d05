//! What is accepted and can only be a mistake. Each warning is true of every run from reset.

mod bindings;
mod bodies;
mod range;
mod registers;
mod show;
mod states;
mod uses;

use crate::library;
use crate::named::Named;
use crate::names::Names;
use crate::positions::Positions;
use crate::prune::reached::Reached;
use crate::table::place::Place;
use crate::table::read::read;
use crate::table::Table;
use crate::text::faults::Faults;
use crate::{numbering, text};
use bindings::Bindings;

pub enum Linted {
    /// By this rule.
    Refused(u32),
    /// One behind the other, as they are shown; empty where there are none.
    Warnings(String),
}

/// What is wrong, and where.
pub(crate) struct Warning {
    /// Where a text has it.
    pub place: Place,
    /// Where a table has it: a register or a state.
    pub record: Place,
    pub words: String,
}

pub fn lint_table(file: &str, image: &[u8]) -> Linted {
    lint_named(file, image, None)
}

/// With the names of the table, where they are known.
pub fn lint_named(file: &str, image: &[u8], names: Option<&Names>) -> Linted {
    let answer = library::check(image);
    match (answer.number, read(image)) {
        (0, Ok(table)) => {
            let numbers = Names::of_table(&table);
            let names = names.unwrap_or(&numbers);
            Linted::Warnings(show::of_table(file, names, &lint(&table, names)))
        }
        (number, _) => Linted::Refused(number),
    }
}

pub fn lint_text(file: &str, source: &str) -> Result<Linted, Faults> {
    let design = text::parse(source)?;
    let (table, positions) = numbering::number(&design)?;
    let answer = library::check(&table.image());
    if answer.number != 0 {
        return Ok(Linted::Refused(answer.number));
    }
    let warnings = in_order(lint(&table, &Names::of_text(&design)), &positions);
    Ok(Linted::Warnings(show::of_text(
        file, source, &positions, &warnings,
    )))
}

/// Of an accepted design: registers, then states, each with what is in its body.
pub(crate) fn lint(table: &Table, names: &Names) -> Vec<Warning> {
    let named = Named { table, names };
    let reached = Reached::of(table);
    let bindings = Bindings::of(table, |_| true);
    let mut warnings = registers::warnings(&named, &reached);
    for state in 0..table.states.len() {
        warnings.extend(states::warning(&named, &reached, state));
        warnings.extend(bodies::warnings(&named, &bindings, state));
    }
    warnings
}

/// In the order of the text.
fn in_order(mut warnings: Vec<Warning>, positions: &Positions) -> Vec<Warning> {
    warnings.sort_by_key(|warning| {
        let at = positions.at(warning.place);
        (at.line, at.column)
    });
    warnings
}

//! Why a text is refused by 4 or 7, of which `explain` shows the record alone.

use crate::named::Named;
use crate::table::limits::PARAMETER_LABEL;
use crate::table::node::{Command, Expression};
use crate::table::place::Place;
use crate::table::Table;

/// None of another refusal.
pub fn reasons(table: &Named, number: u32, place: Place) -> Option<String> {
    match (number, place) {
        (4, Place::State(state)) => record(table, state),
        (7, Place::Command(number)) => Some(deep(of_command(table, number as u16))),
        (7, Place::Expression(number)) => Some(deep(of_expression(table, number as u16))),
        _ => None,
    }
}

/// A text has no other fields that 4 refuses.
fn record(table: &Named, state: usize) -> Option<String> {
    let record = table.states[state];
    let (own, above) = (table.state(state as u8), table.state(record.parent));
    let parent = usize::from(record.parent);
    if state == 0 && parent != 0 {
        Some(format!(
            "{own} is the root, the first state, and has no parent: {above} is none"
        ))
    } else if state == 0 && record.label != 0 && record.label < PARAMETER_LABEL {
        let (first, label) = (table.label(0), table.label(record.label));
        Some(format!(
            "{own} is the root, which has the first label: {first} and not {label}"
        ))
    } else if state != 0 && parent == state {
        Some(format!("{own} is its own parent"))
    } else if state != 0 && parent > state {
        Some(format!(
            "{above}, the parent of {own}, stands below it: a parent comes before its children"
        ))
    } else {
        None
    }
}

fn deep(depth: usize) -> String {
    format!("it is nested {depth} deep")
}

fn of_command(table: &Table, number: u16) -> usize {
    match Command::of(table.commands[usize::from(number)]) {
        Some(
            Command::Sequence { first, second }
            | Command::If {
                then: first,
                otherwise: second,
                ..
            },
        ) => 1 + of_command(table, first).max(of_command(table, second)),
        _ => 1,
    }
}

fn of_expression(table: &Table, number: u16) -> usize {
    match Expression::of(table.expressions[usize::from(number)]) {
        Some(Expression::Operation(_, left, right)) => {
            1 + of_expression(table, left).max(of_expression(table, right))
        }
        _ => 1,
    }
}

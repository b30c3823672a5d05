//! Colours of labels: light enough for black letters, and as unlike in grey as so many can be. Beyond eight they
//! come again with a dashed border. The name of the label stands in each state, so no colour is needed to read it.

use crate::table::{parameters, Table};

const FILLS: [&str; 8] = [
    "#ffffff", "#9ecae1", "#fee391", "#78b87a", "#f4a582", "#d4b9da", "#bdbdbd", "#7fb8b0",
];

/// Where a state has a label that the table does not have.
const NONE: &str = "#ff9999";

/// The attributes of a box with a label.
pub fn of_label(table: &Table, label: u8) -> String {
    let number = usize::from(label);
    if number >= table.rows.len() {
        return filled(NONE, false);
    }
    filled(FILLS[number % FILLS.len()], number >= FILLS.len())
}

/// The attributes of a cell of the legend.
pub fn of_swatch(label: u8) -> String {
    let number = usize::from(label);
    let dashed = match number >= FILLS.len() {
        true => " style=\"dashed\"",
        false => "",
    };
    format!(
        "border=\"1\" bgcolor=\"{}\"{dashed}",
        FILLS[number % FILLS.len()]
    )
}

/// A state with the label of a parameter has the colours of both its bounds, one beside the other.
pub fn of_state(table: &Table, state: usize) -> String {
    let label = table.states[state].label;
    let Some(number) = parameters::of_label(label) else {
        return of_label(table, label);
    };
    let Some(bounds) = table.scope(state).get(number).copied() else {
        return filled(NONE, false);
    };
    let fill = |label: u8| FILLS[usize::from(label) % FILLS.len()];
    filled(
        &format!("{}:{}", fill(bounds.lower), fill(bounds.upper)),
        false,
    )
}

fn filled(fill: &str, dashed: bool) -> String {
    let dashed = match dashed {
        true => ", style=\"filled,rounded,dashed\"",
        false => "",
    };
    format!("fillcolor=\"{fill}\"{dashed}")
}

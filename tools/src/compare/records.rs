//! What differs in labels, registers and state records, command numbers left out.

use super::sides::{Side, Sides};
use crate::table::parameters::of_label;
use crate::table::{Table, PORT};

/// The fields of a record, each by its name, as a number and in words. Names are in the words alone: they do not
/// count.
type Fields = Vec<(&'static str, u32, String)>;

/// A line for each count and each field. Of records that one design alone has there is only the count.
pub fn differences(sides: &Sides) -> Vec<String> {
    let [old, new] = [sides.old, sides.new].map(|side| counts(side.table));
    let both = |of: fn(&Table) -> usize| 0..of(sides.old.table).min(of(sides.new.table));
    let mut lines = changes("", old, new);
    for number in both(|table| table.rows.len()) {
        let record = format!("label {}, ", sides.label(number));
        lines.extend(each(sides, &record, number, row));
    }
    for number in both(|table| table.registers.len()) {
        let record = format!("register {}, ", sides.register(number));
        lines.extend(each(sides, &record, number, register));
    }
    for number in both(|table| table.states.len()) {
        let record = format!("state {}, ", sides.state(number));
        lines.extend(each(sides, &record, number, state));
    }
    lines
}

/// Of the label of a state, in both designs.
pub fn label_said(sides: &Sides, state: usize) -> String {
    let [old, new] = [sides.old, sides.new].map(|side| side.table.states[state].label);
    match (of_label(old), old == new) {
        (Some(number), true) => {
            format!("label of parameter {}", sides.old.parameter(state, number))
        }
        (None, true) => format!("label {}", sides.label(old.into())),
        (_, false) => {
            let [old, new] = [sides.old, sides.new].map(|side| state_label(&side, state));
            format!("label from {old} to {new}")
        }
    }
}

/// The fields of one record that differ.
fn each(
    sides: &Sides,
    record: &str,
    number: usize,
    fields: fn(&Side, usize) -> Fields,
) -> Vec<String> {
    changes(
        record,
        fields(&sides.old, number),
        fields(&sides.new, number),
    )
}

fn changes(record: &str, old: Fields, new: Fields) -> Vec<String> {
    let both = old.into_iter().zip(new);
    both.filter(|((_, old, _), (_, new, _))| old != new)
        .map(|((field, _, from), (_, _, to))| format!("{record}{field}: from {from} to {to}"))
        .collect()
}

fn counts(table: &Table) -> Fields {
    let [labels, registers, states, ..] = table.counts();
    vec![
        plain("labels", labels as u32),
        plain("registers", registers as u32),
        plain("states", states as u32),
    ]
}

/// A field without a name for its number.
fn plain(field: &'static str, number: u32) -> (&'static str, u32, String) {
    (field, number, number.to_string())
}

fn row(side: &Side, number: usize) -> Fields {
    let row = side.table.rows[number];
    let bits = (0..u16::BITS as u8).filter(|bit| row >> bit & 1 == 1);
    let bits: Vec<String> = bits.map(|bit| side.label_listed(bit)).collect();
    let words = format!("{row} (flows to {})", bits.join(", "));
    vec![("row", row.into(), words)]
}

fn register(side: &Side, number: usize) -> Fields {
    let register = &side.table.registers[number];
    let kind = match register.kind {
        PORT => "port",
        _ => "inner",
    };
    vec![
        label("label", side, register.label),
        ("kind", register.kind.into(), kind.to_string()),
        plain("reset value", register.reset),
        plain("width", register.width.into()),
    ]
}

fn label(field: &'static str, side: &Side, label: u8) -> (&'static str, u32, String) {
    (field, label.into(), side.label(label))
}

fn state(side: &Side, number: usize) -> Fields {
    let state = &side.table.states[number];
    let [first, second] = state.bounds;
    vec![
        ("parent", state.parent.into(), side.state(state.parent)),
        ("label", state.label.into(), state_label(side, number)),
        plain("count of parameters", state.count.into()),
        label("lower label of the first parameter", side, first.lower),
        label("upper label of the first parameter", side, first.upper),
        label("lower label of the second parameter", side, second.lower),
        label("upper label of the second parameter", side, second.upper),
    ]
}

fn state_label(side: &Side, state: usize) -> String {
    let label = side.table.states[state].label;
    match of_label(label) {
        Some(number) => format!("that of parameter {}", side.parameter(state, number)),
        None => side.label(label),
    }
}

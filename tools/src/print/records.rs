//! Labels, registers and states as declarations, under their names. What is not there has its number in square
//! brackets.

use super::body::Reader;
use super::layout;
use super::listed::listed;
use crate::named::{Named, Parameter};
use crate::table::limits::{PARAMETERS, WIDTH};
use crate::table::{largest, parameters, Bounds, INNER, PORT};

pub fn label_name(table: &Named, label: usize) -> String {
    name(table.names.labels(), "label", label)
}

pub fn register_name(table: &Named, register: u8) -> String {
    name(table.names.registers(), "register", register.into())
}

pub fn state_name(table: &Named, state: u8) -> String {
    name(table.names.states(), "state", state.into())
}

pub fn parameter_name(scope: &[Parameter], number: usize) -> String {
    let found = scope.get(number).map(|parameter| parameter.name.clone());
    found.unwrap_or_else(|| none("parameter", number))
}

/// What a byte names in the place of a register, where these parameters are in scope.
pub fn operand_name(table: &Named, byte: u16, scope: &[Parameter]) -> String {
    match parameters::of_register(byte) {
        Some(number) => parameter_name(scope, number),
        None => name(table.names.registers(), "register", byte.into()),
    }
}

pub fn bounds(table: &Named, bounds: Bounds) -> String {
    let [lower, upper] = [bounds.lower, bounds.upper].map(|one| label_name(table, one.into()));
    format!("{lower}..{upper}")
}

/// A state's label, which may be a parameter's.
pub fn state_label(table: &Named, state: usize) -> String {
    let label = table.states[state].label;
    match parameters::of_label(label) {
        Some(number) => parameter_name(&table.in_scope(state), number),
        None => label_name(table, usize::from(label)),
    }
}

fn name(names: &[String], what: &str, number: usize) -> String {
    let found = names.get(number).cloned();
    found.unwrap_or_else(|| none(what, number))
}

fn none(what: &str, number: usize) -> String {
    format!("[{what} {number}]")
}

/// Each bit of the row but the label's own, which goes without saying.
pub fn label(table: &Named, label: usize) -> String {
    let row = table.rows[label];
    let own = label_name(table, label);
    let has = |bit: usize| bit < 16 && row >> bit & 1 == 1;
    let mut flows_to = Vec::new();
    if !has(label) {
        flows_to.push(format!("[not {own}]"));
    }
    let others = (0..16).filter(|&bit| bit != label && has(bit));
    flows_to.extend(others.map(|bit| label_name(table, bit)));
    if flows_to.is_empty() {
        format!("label {own}")
    } else {
        format!("label {own} -> {}", flows_to.join(", "))
    }
}

pub fn register(table: &Named, register: usize) -> String {
    let record = table.registers[register];
    let own = &table.names.registers()[register];
    let kind = match record.kind {
        INNER => "register".to_string(),
        PORT => "port".to_string(),
        kind => format!("[kind {kind}]"),
    };
    let label = label_name(table, usize::from(record.label));
    let width = match record.width {
        WIDTH => String::new(),
        width if largest(width).is_some() => format!(" width {width}"),
        width => format!(" [width {width}]"),
    };
    format!("{kind} {own} : {label}{width} = {}", record.reset)
}

pub fn state(table: &Named, state: usize, reader: &mut Reader) -> String {
    reader.enter(state);
    let body = listed(reader.command(table.states[state].command));
    layout::block(&state_head(table, state), &body)
}

/// All of a state but its body. The root's parent is the root, and goes without saying.
pub fn state_head(table: &Named, state: usize) -> String {
    let record = table.states[state];
    let own = &table.names.states()[state];
    let label = state_label(table, state);
    let parameters = own_parameters(table, state);
    if state == 0 && record.parent == 0 {
        return format!("state {own}{parameters} : {label}");
    }
    let parent = state_name(table, record.parent);
    format!("state {own}{parameters} in {parent} : {label}")
}

/// In parentheses, or nothing. A count above two and bounds that are not used have no form in the text.
fn own_parameters(table: &Named, state: usize) -> String {
    let record = table.states[state];
    let own = table
        .names
        .parameters(state)
        .iter()
        .zip(record.parameters());
    let mut shown: Vec<String> = own
        .map(|(name, own)| format!("{name} : {}", bounds(table, *own)))
        .collect();
    if usize::from(record.count) > PARAMETERS {
        shown.push(format!("[count {}]", record.count));
    }
    let unused = record.bounds.iter().skip(usize::from(record.count));
    let unused = unused.filter(|pair| **pair != Bounds::default());
    shown.extend(unused.map(|pair| format!("[unused {}..{}]", pair.lower, pair.upper)));
    match shown.is_empty() {
        true => String::new(),
        false => format!("({})", shown.join(", ")),
    }
}

//! A table as source text. What has no source form stands in square brackets, which the assembler
//! refuses; nodes that no state reaches stand in comments at the end.

pub mod body;
pub mod layout;
mod listed;
pub mod records;

use crate::named::Named;
use crate::names::Names;
use crate::table::Table;
use body::Reader;

pub fn print(table: &Table) -> String {
    print_named(table, &Names::of_table(table))
}

/// With these names in the place of letters and numbers.
pub fn print_named(table: &Table, names: &Names) -> String {
    let table = &Named { table, names };
    let mut text = String::new();
    for label in 0..table.rows.len() {
        text += &records::label(table, label);
        text.push('\n');
    }
    part(&mut text);
    for register in 0..table.registers.len() {
        text += &records::register(table, register);
        text.push('\n');
    }
    part(&mut text);
    let mut reader = Reader::new(table);
    for state in 0..table.states.len() {
        text += &records::state(table, state, &mut reader);
        text.push('\n');
    }
    let unused = unused(table, reader);
    if !unused.is_empty() {
        part(&mut text);
        text += "# Used by no state, and left out when this is assembled:\n";
        text += &unused;
    }
    text
}

/// An empty line between two parts that both have lines.
fn part(text: &mut String) {
    if !text.is_empty() && !text.ends_with("\n\n") {
        text.push('\n');
    }
}

/// From the highest down, so that an owner stands before its parts and shows them with it.
fn unused(table: &Named, mut reader: Reader) -> String {
    let mut text = String::new();
    reader.leave();
    for number in (0..table.commands.len() as u16).rev() {
        if !reader.has_command(number) {
            let command = layout::flat(&reader.command(number));
            text += &format!("# command {number}: {command}\n");
        }
    }
    for number in (0..table.expressions.len() as u16).rev() {
        if !reader.has_expression(number) {
            let expression = reader.expression(number).text;
            text += &format!("# expression {number}: {expression}\n");
        }
    }
    text
}

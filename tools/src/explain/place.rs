//! What stands at the place of a refusal, in source form.

use super::{children, flow, lattice, parameters, ports, registers, rules, shape, uses};
use crate::named::Named;
use crate::names::Names;
use crate::print::body::{self, Reader};
use crate::print::{layout, records};
use crate::table::place::Place;
use crate::table::read::{pairs, read};

/// With what a reader would look for next: other records, the uses, or why the rule fails.
pub fn describe(image: &[u8], names: Option<&Names>, number: u32, place: usize) -> String {
    let table = match read(image) {
        Ok(table) => table,
        Err(why) => return directory(image, &why),
    };
    let numbers = Names::of_table(&table);
    let table = Named {
        table: &table,
        names: names.unwrap_or(&numbers),
    };
    match rules::place(&table, number, place) {
        None if number == 20 => parameters::holders(&table),
        None if number == 24 => NO_FAULT.to_string(),
        None => directory(image, "a count is out of its limits"),
        Some(Place::Label(place)) => label(&table, place),
        Some(Place::Register(place)) => register(&table, place),
        Some(Place::State(place)) if number == 9 => child(&table, place),
        Some(Place::State(place)) if number == 19 => {
            let why = parameters::of_state(&table, place);
            format!("{}\nBecause:\n{why}", state(&table, place))
        }
        Some(Place::State(place)) => state(&table, place),
        Some(Place::Command(place)) => {
            let text = command(&table, place);
            match number {
                6 => format!("{text}\n{}", uses::of_command(&table, place as u16)),
                8 => format!("{text}\nBecause:\n{}", shape::reasons(&table, place)),
                10..=12 => format!("{text}\nBecause:\n{}", flow::reasons(&table, place)),
                16 => format!("{text}\nBecause:\n{}", ports::reasons(&table, place)),
                19 => format!(
                    "{text}\nBecause:\n{}",
                    parameters::of_command(&table, place)
                ),
                _ => text,
            }
        }
        Some(Place::Expression(place)) => {
            let text = expression(&table, place);
            match number {
                6 => format!("{text}\n{}", uses::of_expression(&table, place as u16)),
                19 => format!(
                    "{text}\nBecause:\n{}",
                    parameters::of_expression(&table, place)
                ),
                _ => text,
            }
        }
    }
}

/// Of an area that the image was to be written to.
const NO_FAULT: &str = "The image is not at fault: a longer area takes what is written.\n";

fn directory(image: &[u8], why: &str) -> String {
    let pairs: Vec<String> = pairs::<5>(image)
        .iter()
        .map(|(offset, length)| format!("{offset},{length}"))
        .collect();
    let length = image.len();
    format!(
        "The directory of an image of {length} bytes ({why}):\n    {}\n",
        pairs.join(" ")
    )
}

/// With all the others, as most rules about labels are about two or three of them.
fn label(table: &Named, label: usize) -> String {
    let row = table.rows[label];
    let text = records::label(table, label);
    let all = (0..table.rows.len()).map(|other| records::label(table, other) + "\n");
    let all = indented(&all.collect::<String>());
    let why = lattice::reasons(table, label);
    let line = table.names.declared(Place::Label(label));
    format!("Label {label}, row {row}{line}:\n    {text}\n\nAll labels:\n{all}\n\nBecause:\n{why}")
}

fn register(table: &Named, register: usize) -> String {
    let text = records::register(table, register);
    let why = registers::reasons(table, register);
    let line = table.names.declared(Place::Register(register));
    format!("Register {register}{line}:\n    {text}\n\nBecause:\n{why}")
}

/// With its parent, whose number the rule compares with its own.
fn state(table: &Named, state: usize) -> String {
    let text = whole_state(table, state);
    let line = table.names.declared(Place::State(state));
    let parent = usize::from(table.states[state].parent);
    if parent == state || parent >= table.states.len() {
        return format!("State {state}{line}:\n{text}\n");
    }
    let parent_text = indented(&records::state_head(table, parent));
    format!("State {state}{line}:\n{text}\n\nIts parent:\n{parent_text}\n")
}

/// With its parent, whose body shows the fall.
fn child(table: &Named, child: usize) -> String {
    let text = whole_state(table, child);
    let parent = whole_state(table, usize::from(table.states[child].parent));
    let why = children::reasons(table, child);
    let line = table.names.declared(Place::State(child));
    format!("State {child}{line}:\n{text}\n\nIts parent:\n{parent}\n\nBecause:\n{why}")
}

pub fn command(table: &Named, number: usize) -> String {
    let home = home_of_command(table, number);
    let text = layout::flat(&reader(table, home).command(number as u16));
    let bytes = body::bytes(table.commands[number]);
    let home = in_body(table, home);
    format!("Command {number} (bytes {bytes}):\n    {text}\n\n{home}")
}

fn expression(table: &Named, number: usize) -> String {
    let home = home_of_expression(table, number);
    let text = reader(table, home).expression(number as u16).text;
    let bytes = body::bytes(table.expressions[number]);
    let home = in_body(table, home);
    format!("Expression {number} (bytes {bytes}):\n    {text}\n\n{home}")
}

/// The first state whose body has shown the node.
pub fn home_of_command(table: &Named, number: usize) -> Option<usize> {
    home(table, |reader| reader.has_command(number as u16))
}

pub fn home_of_expression(table: &Named, number: usize) -> Option<usize> {
    home(table, |reader| reader.has_expression(number as u16))
}

fn home(table: &Named, shown: impl Fn(&Reader) -> bool) -> Option<usize> {
    (0..table.states.len()).find(|&state| {
        let mut reader = Reader::new(table);
        reader.command(table.states[state].command);
        shown(&reader)
    })
}

fn reader<'a>(table: &Named<'a>, home: Option<usize>) -> Reader<'a> {
    let mut reader = Reader::new(table);
    if let Some(state) = home {
        reader.enter(state);
    }
    reader
}

fn in_body(table: &Named, home: Option<usize>) -> String {
    match home {
        Some(state) => format!(
            "In the body of state {state}{}:\n{}\n",
            table.names.declared(Place::State(state)),
            whole_state(table, state)
        ),
        None => "It is in the body of no state.\n".to_string(),
    }
}

fn whole_state(table: &Named, state: usize) -> String {
    indented(&records::state(table, state, &mut Reader::new(table)))
}

fn indented(text: &str) -> String {
    let lines: Vec<String> = text.lines().map(|line| format!("    {line}")).collect();
    lines.join("\n")
}

//! A gate table as text. What has no form in the text stands in square brackets, which the assembler
//! refuses.

use super::names::WireNames;
use super::{GateTable, Wire, TRUSTED, UNTRUSTED};
use crate::text::gates::FIRST;

pub fn print(table: &GateTable) -> String {
    print_named(table, &WireNames::of_table(table))
}

/// With these names in the place of letters and numbers.
pub fn print_named(table: &GateTable, names: &WireNames) -> String {
    let mut text = format!("{FIRST}\n");
    let mut kind = None;
    for number in 0..table.wires() {
        let next = table.wire(number).map(|wire| std::mem::discriminant(&wire));
        if next != kind {
            text.push('\n');
            kind = next;
        }
        text += &declaration(table, names, number);
        text.push('\n');
    }
    text
}

pub fn declaration(table: &GateTable, names: &WireNames, number: usize) -> String {
    let own = names.wire(number);
    match table.wire(number) {
        Some(Wire::Input(input)) => format!("input {own} {}", mark(table.inputs[input])),
        Some(Wire::FlipFlop(flipflop)) => {
            let record = table.flipflops[flipflop];
            let next = names.wire(record.next.into());
            let value = match record.value {
                0 | 1 => record.value.to_string(),
                value => format!("[value {value}]"),
            };
            let mark = mark(record.mark);
            format!("flipflop {own} = {next} start {value} {mark}")
        }
        Some(Wire::Gate(gate)) => {
            let [first, second] = table.gates[gate].map(|wire| names.wire(wire.into()));
            format!("gate {own} = nand {first} {second}")
        }
        None => own,
    }
}

fn mark(mark: u8) -> String {
    match mark {
        TRUSTED => "trusted".to_string(),
        UNTRUSTED => "untrusted".to_string(),
        mark => format!("[mark {mark}]"),
    }
}

//! Faults in gate tables: refusal 25 in the directory, 26 in the records.

use super::directory::{moved_border, resized_section, swapped_sections, wrong_field};
use crate::generate::random::Random;
use crate::reference::limits::*;
use crate::table::gates::{FlipFlop, GateTable};

const SECTIONS: usize = 3;

/// Values and marks that are none.
const NEITHER: &[u8] = &[2, 2, 3, 127, 128, 254, 255];

/// The bytes of a gate table with a fault of refusal 25.
pub fn spoil_gate_directory(table: &GateTable, random: &mut Random) -> Vec<u8> {
    let mut bytes = table.bytes();
    match random.below(8) {
        0 => wrong_field(bytes, SECTIONS, random),
        1 => moved_border(bytes, SECTIONS, random),
        2 => swapped_sections(bytes, SECTIONS, random),
        3 => resized_section(bytes, SECTIONS, random),
        4 => {
            bytes.truncate(random.below(GATES_DIRECTORY_BYTES + 1));
            bytes
        }
        5 => {
            bytes.truncate(bytes.len() - 1);
            bytes
        }
        6 => {
            bytes.push(random.bits() as u8);
            bytes
        }
        _ => one_more(table, random),
    }
}

/// One record more than the limit; all else is right.
fn one_more(table: &GateTable, random: &mut Random) -> Vec<u8> {
    let mut table = table.clone();
    match random.below(3) {
        0 => table.inputs.resize(MOST_INPUTS + 1, 0),
        1 => table
            .flipflops
            .resize(MOST_FLIPFLOPS + 1, FlipFlop::default()),
        _ => table.gates.resize(MOST_GATES + 1, [0, 0]),
    }
    table.bytes()
}

/// Puts in a fault of refusal 26, if some record can have one.
pub fn spoil_gate_record(table: &mut GateTable, random: &mut Random) {
    let counts = [table.inputs.len(), table.flipflops.len(), table.gates.len()];
    let there: Vec<usize> = (0..SECTIONS)
        .filter(|&section| counts[section] > 0)
        .collect();
    if there.is_empty() {
        return;
    }
    let section = *random.pick(&there);
    let record = random.index(counts[section]);
    match section {
        0 => table.inputs[record] = *random.pick(NEITHER),
        1 => spoil_flipflop(table, record, random),
        _ => spoil_gate(table, record, random),
    }
}

fn spoil_flipflop(table: &mut GateTable, record: usize, random: &mut Random) {
    let wires = table.wires();
    let flipflop = &mut table.flipflops[record];
    match random.below(4) {
        0 => flipflop.value = *random.pick(NEITHER),
        1 => flipflop.mark = *random.pick(NEITHER),
        2 => flipflop.next = wires as u16,
        _ => flipflop.next = too_high(wires, random),
    }
}

fn spoil_gate(table: &mut GateTable, record: usize, random: &mut Random) {
    let own = table.first_gate() + record;
    let wire = match random.below(3) {
        0 => own as u16,
        1 => (own + 1) as u16,
        _ => too_high(own, random),
    };
    table.gates[record][random.below(2)] = wire;
}

/// A wire at or above this one: near, far, or with a right low byte.
fn too_high(lowest: usize, random: &mut Random) -> u16 {
    let wire = match random.below(4) {
        0 => lowest + random.below(4),
        1 => usize::from(u16::MAX),
        2 => lowest + 256 * random.between(1, 8),
        _ => random.between(lowest, usize::from(u16::MAX)),
    };
    wire as u16
}

//! Faults of every kind. Each function puts one fault into a design that keeps the rules;
//! the reference says afterwards which refusal it comes to.

mod children;
mod directory;
mod flow;
mod gates;
mod nodes;
mod parameters;
mod raw;
mod records;
mod shape;

use super::random::Random;
use crate::reference::refusal;
use crate::table::Table;

pub use directory::spoil_directory;
pub use gates::{spoil_gate_directory, spoil_gate_record};
pub use raw::{damaged, resized, senseless};

/// The numbers of faults in a table, in the order of the checks: all but 1, the directory's.
pub const NUMBERS: &[u32] = refusal::IMAGE.split_at(1).1;

/// The design with faults of these numbers.
pub fn spoiled(table: &Table, numbers: &[u32], random: &mut Random) -> Table {
    let mut table = table.clone();
    // The later checks' faults first: they expect a design that passes the earlier ones.
    for &number in NUMBERS.iter().rev() {
        for _ in numbers.iter().filter(|&&wanted| wanted == number) {
            spoil(&mut table, number, random);
        }
    }
    table
}

/// The design with several faults in its flow, its nodes in another order: request E7 shows the fault
/// that is read first, which may have any number.
pub fn leaking(table: &Table, random: &mut Random) -> Table {
    let count = random.between(2, 6);
    let numbers: Vec<u32> = (0..count).map(|_| *random.pick(&[10, 11, 12])).collect();
    let mut table = spoiled(table, &numbers, random);
    table.renumber(random);
    table
}

/// Puts a fault into the table that the refusal of this number speaks of.
pub fn spoil(table: &mut Table, number: u32, random: &mut Random) {
    match number {
        2 => records::spoil_rows(table, random),
        3 => records::spoil_register(table, random),
        4 => records::spoil_state(table, random),
        5 => nodes::spoil_field(table, random),
        6 => nodes::spoil_use(table, random),
        7 => nodes::spoil_depth(table, random),
        8 => shape::spoil_shape(table, random),
        16 => shape::spoil_port(table, random),
        19 => parameters::spoil_parameter(table, random),
        9 => children::spoil_child(table, random),
        10 => flow::spoil_assign(table, random),
        11 => flow::spoil_goto(table, random),
        12 => flow::spoil_fall(table, random),
        _ => unreachable!("no table fault has this number"),
    }
}

//! Where registers are read and assigned, by themselves or as what a parameter stands for.

use super::bindings::Bindings;
use crate::table::node::{Command, Expression};
use crate::table::{parameters, Table};
use std::collections::BTreeSet;

/// The registers that some states use.
#[derive(Default)]
pub struct Uses {
    pub read: BTreeSet<u8>,
    pub assigned: BTreeSet<u8>,
    /// Given to a parameter that is the label of a state: nothing need read it then.
    pub labels: BTreeSet<u8>,
}

impl Uses {
    /// In the bodies of the states that are asked for.
    pub fn of(table: &Table, asked: impl Fn(usize) -> bool) -> Uses {
        let bindings = Bindings::of(table, &asked);
        let mut uses = Uses::default();
        for state in (0..table.states.len()).filter(|&state| asked(state)) {
            if let Some(number) = parameters::of_label(table.states[state].label) {
                let byte = parameters::register_byte(number);
                uses.labels.extend(bindings.registers(state, byte));
            }
            each_command(table, state, &mut |_, command| {
                let value = match command {
                    Command::Assign { register, value } => {
                        let assigned = bindings.registers(state, register.into());
                        uses.assigned.extend(assigned);
                        value
                    }
                    Command::If { condition, .. } => condition,
                    _ => return,
                };
                each_read(table, value, &mut |byte| {
                    uses.read.extend(bindings.registers(state, byte.into()));
                });
            });
        }
        uses
    }
}

/// The commands of a state's body, by their numbers, in reading order.
pub fn each_command(table: &Table, state: usize, act: &mut impl FnMut(u16, Command)) {
    command(table, table.states[state].command, act);
}

fn command(table: &Table, number: u16, act: &mut impl FnMut(u16, Command)) {
    let Some(this) = Command::of(table.commands[usize::from(number)]) else {
        return;
    };
    act(number, this);
    match this {
        Command::Sequence { first, second } => {
            command(table, first, act);
            command(table, second, act);
        }
        Command::If {
            then, otherwise, ..
        } => {
            command(table, then, act);
            command(table, otherwise, act);
        }
        _ => (),
    }
}

/// The register bytes that an expression reads.
pub fn each_read(table: &Table, number: u16, act: &mut impl FnMut(u8)) {
    match Expression::of(table.expressions[usize::from(number)]) {
        Some(Expression::Register(byte)) => act(byte),
        Some(Expression::Operation(_, left, right)) => {
            each_read(table, left, act);
            each_read(table, right, act);
        }
        Some(Expression::Constant(_)) | None => (),
    }
}

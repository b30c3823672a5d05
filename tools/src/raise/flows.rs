//! What has to flow at each assignment, goto and fall, in reading order, and the least labels of the
//! registers with which all assignments are met.

use crate::table::node::{Command, Expression};
use crate::table::Table;

/// A flow that a command makes.
pub struct Flow {
    pub command: u16,
    pub state: u8,
    /// The registers read in the conditions of the ifs around it.
    pub conditions: Vec<u8>,
    /// Those that an assignment reads.
    pub reads: Vec<u8>,
    pub to: To,
}

#[derive(Clone, Copy, PartialEq, Eq)]
pub enum To {
    Register(u8),
    State(u8),
}

impl Flow {
    /// Every register that flows, those of conditions first.
    pub fn registers(&self) -> impl Iterator<Item = u8> + '_ {
        self.conditions.iter().chain(&self.reads).copied()
    }
}

/// Expects a table that keeps the rules up to 9 and has no parameters: all others are refused by 20.
pub fn flows(table: &Table) -> Vec<Flow> {
    let mut flows = Vec::new();
    for (state, record) in table.states.iter().enumerate() {
        add(table, record.command, state as u8, &[], &mut flows);
    }
    flows
}

fn add(table: &Table, command: u16, state: u8, conditions: &[u8], flows: &mut Vec<Flow>) {
    let (reads, to) = match Command::of(table.commands[usize::from(command)]) {
        Some(Command::Assign { register, value }) => (read(table, value), To::Register(register)),
        Some(Command::Goto { state, .. }) => (Vec::new(), To::State(state)),
        Some(Command::Fall) => (Vec::new(), To::State(state)),
        Some(Command::Sequence { first, second }) => {
            add(table, first, state, conditions, flows);
            return add(table, second, state, conditions, flows);
        }
        Some(Command::If {
            condition,
            then,
            otherwise,
        }) => {
            let inner = [conditions, &read(table, condition)].concat();
            add(table, then, state, &inner, flows);
            return add(table, otherwise, state, &inner, flows);
        }
        Some(Command::Skip) | None => return,
    };
    flows.push(Flow {
        command,
        state,
        conditions: conditions.to_vec(),
        reads,
        to,
    });
}

/// The registers that an expression reads, in the order of the text.
fn read(table: &Table, number: u16) -> Vec<u8> {
    match Expression::of(table.expressions[usize::from(number)]) {
        Some(Expression::Register(register)) => vec![register],
        Some(Expression::Operation(_, left, right)) => {
            [read(table, left), read(table, right)].concat()
        }
        _ => Vec::new(),
    }
}

/// The table with the least labels of its registers with which all assignments are met: those of a
/// raising, as far as there is one.
pub fn raised(table: &Table, flows: &[Flow]) -> Table {
    let mut table = table.clone();
    loop {
        let before = table.registers.clone();
        for flow in flows {
            if let To::Register(written) = flow.to {
                let mut label = table.registers[usize::from(written)].label;
                label = join(&table, label, table.states[usize::from(flow.state)].label);
                for register in flow.registers() {
                    label = join(&table, label, table.registers[usize::from(register)].label);
                }
                table.registers[usize::from(written)].label = label;
            }
        }
        if table.registers == before {
            return table;
        }
    }
}

pub fn flows_to(table: &Table, from: u8, to: u8) -> bool {
    table.rows[usize::from(from)] >> to & 1 == 1
}

/// The least label above both; the rows are a lattice.
fn join(table: &Table, one: u8, other: u8) -> u8 {
    let labels = 0..table.rows.len() as u8;
    let above: Vec<u8> = labels
        .filter(|&label| flows_to(table, one, label) && flows_to(table, other, label))
        .collect();
    let is_least = |&&label: &&u8| above.iter().all(|&upper| flows_to(table, label, upper));
    above.iter().find(is_least).copied().unwrap_or(one)
}

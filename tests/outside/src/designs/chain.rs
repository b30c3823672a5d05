//! The design that takes the most passes to raise, and in each pass the most nodes.

use crate::reference::limits::{
    MOST_COMMANDS, MOST_EXPRESSIONS, MOST_LABELS, MOST_REGISTERS, WIDEST,
};
use crate::table::Table;

const LAST: u8 = MOST_REGISTERS as u8 - 1;
const TOP: u8 = MOST_LABELS as u8 - 1;

/// The root has one command, state 2 three, and state 1 has a goto, a sequence, and ifs over all its
/// assignments, one fewer than these.
const ASSIGNMENTS: usize = (MOST_COMMANDS - 5) / 2;

/// The labels are a chain. In state 1, of label 0, each register takes the value of the one before it,
/// the last register first, so that a pass in reading order moves every label on by one register. The
/// labels fall by one from each four registers to the next four, so that each pass raises many of them, by
/// one. State 2, of the highest label, assigns to r0, which is one label below it: that is one pass more.
///
/// No design takes more passes. A label comes to a register along assignments that name each register
/// once, from another register or from a state, and each pass moves it on by one assignment at least.
///
/// The other assignments of state 1 are r0 := r0 or r0 + r0, and in place of sequences it has ifs over the
/// last register, whose label is never above another: they are read in every pass and move nothing.
pub fn longest_chain() -> Table {
    let rows: Vec<u16> = (0..MOST_LABELS).map(|label| u16::MAX << label).collect();
    let mut table = Table::new(&rows);
    for register in 0..MOST_REGISTERS {
        let label = (TOP - 1).saturating_sub((register / 4) as u8);
        table.inner(label, 0, WIDEST);
    }
    let fall = table.fall();
    table.state(0, 0, fall);

    let mut assignments: Vec<u16> = Vec::new();
    for register in (1..=LAST).rev() {
        let before = table.read(register - 1);
        assignments.push(table.assign(register, before));
    }
    while assignments.len() < ASSIGNMENTS {
        let trees_left = 2 * ASSIGNMENTS - assignments.len();
        let value = one_or_two(&mut table, 0, trees_left);
        assignments.push(table.assign(0, value));
    }
    let all = branches(&mut table, assignments);
    let go = table.goto(1);
    let body = table.sequence(all, go);
    table.state(0, 0, body);

    let zero = table.constant(0);
    let assign = table.assign(0, zero);
    let go = table.goto(2);
    let body = table.sequence(assign, go);
    table.state(0, TOP, body);
    table
}

/// The commands in their order, two by two in the branches of an if.
fn branches(table: &mut Table, mut commands: Vec<u16>) -> u16 {
    let mut trees_left = commands.len();
    while commands.len() > 1 {
        let mut pairs = Vec::new();
        for pair in commands.chunks(2) {
            pairs.push(match *pair {
                [then, otherwise] => {
                    trees_left -= 1;
                    let condition = one_or_two(table, LAST, trees_left);
                    table.branch(condition, then, otherwise)
                }
                _ => pair[0],
            });
        }
        commands = pairs;
    }
    commands[0]
}

/// A read of the register, or a sum of two while there is room for it beside a node for each of the
/// trees that are left.
fn one_or_two(table: &mut Table, register: u8, trees_left: usize) -> u16 {
    let read = table.read(register);
    if table.expressions.len() + 2 + trees_left > MOST_EXPRESSIONS {
        return read;
    }
    let more = table.read(register);
    table.add(read, more)
}

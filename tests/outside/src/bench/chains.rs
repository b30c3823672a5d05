//! Random designs of the largest size in which a raising takes 63 passes.

use crate::generate::random::Random;
use crate::generate::{design, Size};
use crate::reference::image::{ASSIGN, FALL, GOTO, IF, INNER, READ, SEQUENCE};
use crate::reference::limits::{MOST_LABELS, MOST_REGISTERS};
use crate::table::{Node, Table};

const LAST: u8 = MOST_REGISTERS as u8 - 1;

/// The trees of a random design, with other registers in them: as in `longest_chain`, the first 63
/// assignments take each register from the one before it, the last register first, and all others
/// read the last register, whose label is never above another. What decides a goto or a fall reads none.
pub fn random_chain(seed: u64) -> Table {
    let mut table = design(&mut Random::new(seed), Size::LARGEST);
    table.rows = (0..MOST_LABELS).map(|label| u16::MAX << label).collect();
    for (number, register) in table.registers.iter_mut().enumerate() {
        register.kind = INNER;
        // r0 alone has the highest, which comes to the last register in the last pass.
        register.label = (MOST_LABELS - 1 - number.div_ceil(5)) as u8;
    }
    for state in 0..table.states.len() {
        table.states[state].label = 0;
        rewrite(&mut table, state);
    }
    let mut next = LAST;
    for command in assignments(&table) {
        let value = table.commands[command].a;
        table.commands[command].which = 0;
        if next > 0 && reads(&table, value) {
            table.commands[command].which = next;
            each_read(&mut table, value, |node| node.which = next - 1);
            next -= 1;
        }
    }
    table
}

/// Every read becomes one of the last register, and in the conditions of gotos and falls a constant.
fn rewrite(table: &mut Table, state: usize) {
    let body = table.states[state].command;
    for command in in_order(table, body) {
        let Node { kind, a, .. } = table.commands[command];
        if kind == ASSIGN || kind == IF && !transfers(table, command) {
            each_read(table, a, |node| node.which = LAST);
        } else if kind == IF {
            each_read(table, a, |node| *node = Node::constant(1));
        }
    }
}

fn transfers(table: &Table, command: usize) -> bool {
    let node = table.commands[command];
    match node.kind {
        SEQUENCE => transfers(table, node.b.into()),
        IF => transfers(table, node.b.into()),
        kind => kind == FALL || kind == GOTO,
    }
}

/// All commands below this one, in reading order.
fn in_order(table: &Table, command: u16) -> Vec<usize> {
    let node = table.commands[usize::from(command)];
    let parts = match node.kind {
        SEQUENCE => vec![node.a, node.b],
        IF => vec![node.b, node.c],
        _ => Vec::new(),
    };
    let mut all = vec![usize::from(command)];
    all.extend(parts.into_iter().flat_map(|part| in_order(table, part)));
    all
}

fn assignments(table: &Table) -> Vec<usize> {
    let bodies = table.states.iter();
    bodies
        .flat_map(|state| in_order(table, state.command))
        .filter(|&command| table.commands[command].kind == ASSIGN)
        .collect()
}

fn reads(table: &Table, expression: u16) -> bool {
    let node = table.expressions[usize::from(expression)];
    node.kind == READ || node.kind > READ && (reads(table, node.a) || reads(table, node.b))
}

fn each_read(table: &mut Table, expression: u16, change: impl Fn(&mut Node) + Copy) {
    let node = &mut table.expressions[usize::from(expression)];
    if node.kind == READ {
        change(node);
    } else if node.kind > READ {
        let (left, right) = (node.a, node.b);
        each_read(table, left, change);
        each_read(table, right, change);
    }
}

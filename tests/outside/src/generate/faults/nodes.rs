//! Faults in the nodes' fields, uses and depth (refusals 5 to 7).

use crate::generate::random::Random;
use crate::reference::image::{IF, LAST_OPERATION};
use crate::reference::limits::{MOST_COMMANDS, MOST_EXPRESSIONS, MOST_REGISTERS, MOST_STATES};
use crate::table::{Family, Node, Table};

fn family(table: &Table, random: &mut Random) -> Family {
    if table.expressions.is_empty() || random.percent(50) {
        Family::Command
    } else {
        Family::Expression
    }
}

pub fn spoil_field(table: &mut Table, random: &mut Random) {
    let family = family(table, random);
    let registers = table.registers.len() as u8;
    let states = table.states.len() as u8;
    let expressions = table.expressions.len() as u16;
    // Neither a register nor a parameter.
    let none: &[u8] = match usize::from(registers) {
        MOST_REGISTERS => &[66, 67, 128, 255],
        _ => &[registers, MOST_REGISTERS as u8 - 1, 66, 255],
    };
    let nodes = table.nodes(family);
    let count = nodes.len() as u16;
    let number = random.index(nodes.len());
    let node = &mut nodes[number];
    match random.below(4) {
        // Often the byte is one that the kind does not use.
        0 => {
            let mut bytes = node.bytes();
            bytes[random.between(1, 7)] = *random.pick(&[1, 128, 255]);
            *node = Node::from_bytes(bytes);
        }
        // Every kind there is and the first ones that are not.
        1 => {
            let last = match family {
                Family::Command => IF,
                Family::Expression => LAST_OPERATION,
            };
            let any = random.below(16) as u8;
            node.kind = *random.pick(&[last + 1, last + 2, 255, any]);
        }
        2 => {
            let own = number as u16;
            let wrong = *random.pick(&[own, own + 1, count - 1, count, u16::MAX]);
            let mut parts = node.own_parts(family);
            if !parts.is_empty() {
                *parts.swap_remove(random.below(2)) = wrong;
            }
        }
        _ => match (family, node.kind) {
            // Of its fields only c is 5's.
            (Family::Command, 4) if random.percent(30) => node.c = *random.pick(&[1, 64, 256]),
            (Family::Command, 4) => {
                node.which = *random.pick(&[states, states + 1, MOST_STATES as u8, 255])
            }
            (Family::Command, 1) if random.percent(50) => {
                node.which = *random.pick(none);
            }
            (Family::Command, 1 | 5) => {
                node.a = *random.pick(&[
                    expressions,
                    expressions + 1,
                    MOST_EXPRESSIONS as u16,
                    u16::MAX,
                ]);
            }
            (Family::Expression, 1) => {
                node.which = *random.pick(none);
            }
            _ => {}
        },
    }
}

pub fn spoil_use(table: &mut Table, random: &mut Random) {
    match random.below(6) {
        // Two states, one command.
        0 => {
            let (from, to) = (
                random.index(table.states.len()),
                random.index(table.states.len()),
            );
            table.states[to].command = table.states[from].command;
        }
        1 => {
            let state = random.index(table.states.len());
            table.states[state].command = random.index(table.commands.len()) as u16;
        }
        // A node that nobody uses.
        2 if table.commands.len() < MOST_COMMANDS => {
            table.skip();
        }
        3 if table.expressions.len() < MOST_EXPRESSIONS => {
            table.constant(7);
        }
        // A command takes another's expression.
        4 => {
            let number = random.index(table.commands.len());
            let expressions = table.expressions.len();
            if let Some(part) = table.commands[number].expression() {
                *part = random.index(expressions) as u16;
            }
        }
        _ => redirect_part(table, random),
    }
}

/// One part becomes some other lower node, or the same as the other part.
fn redirect_part(table: &mut Table, random: &mut Random) {
    let family = family(table, random);
    let nodes = table.nodes(family);
    for _ in 0..20 {
        let number = random.index(nodes.len());
        let mut parts = nodes[number].own_parts(family);
        if parts.is_empty() {
            continue;
        }
        let (one, other) = (random.below(2), *parts[random.below(2)]);
        *parts[one] = if random.percent(40) {
            other
        } else {
            random.below(number) as u16
        };
        return;
    }
}

/// Builds one tree up to a depth at or just above 64, then renumbers everything.
pub fn spoil_depth(table: &mut Table, random: &mut Random) {
    let wanted = *random.pick(&[64, 65, 65, 65, 66, 70, 300]);
    if random.percent(50) {
        let state = random.index(table.states.len());
        let mut root = table.states[state].command;
        let missing = wanted - depths(table, Family::Command)[usize::from(root)].min(wanted);
        for _ in 0..missing.min(MOST_COMMANDS.saturating_sub(table.commands.len()) / 2) {
            let first = table.skip();
            root = table.sequence(first, root);
        }
        table.states[state].command = root;
    } else {
        let holders: Vec<usize> = (0..table.commands.len())
            .filter(|&number| table.commands[number].expression().is_some())
            .collect();
        if holders.is_empty() {
            return;
        }
        let holder = *random.pick(&holders);
        let mut root = table.commands[holder].a;
        let missing = wanted - depths(table, Family::Expression)[usize::from(root)].min(wanted);
        for _ in 0..missing.min(2_048usize.saturating_sub(table.expressions.len()) / 2) {
            let one = table.constant(1);
            root = if random.percent(50) {
                table.add(root, one)
            } else {
                table.add(one, root)
            };
        }
        table.commands[holder].a = root;
    }
    table.renumber(random);
}

fn depths(table: &mut Table, family: Family) -> Vec<usize> {
    let mut depths = Vec::new();
    for node in table.nodes(family) {
        let parts = node.own_parts(family);
        let deepest = parts
            .into_iter()
            .map(|part| depths[usize::from(*part)])
            .max();
        depths.push(1 + deepest.unwrap_or(0));
    }
    depths
}

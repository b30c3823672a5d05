//! Another design with the same labels, registers and states, and new bodies in some of them: request E14.

use super::body::Author;
use super::random::Random;
use crate::reference::image::{ASSIGN, CONSTANT, FALL, GOTO, LAST_OPERATION, READ};
use crate::reference::limits::PARAMETER_REGISTER;
use crate::table::{Family, Node, Table};

/// New bodies that keep every rule in the states given, the others copied, and all nodes numbered anew.
pub fn edited(table: &Table, states: &[usize], random: &mut Random) -> Table {
    let mut edited = Table {
        commands: Vec::new(),
        expressions: Vec::new(),
        ..table.clone()
    };
    for state in 0..table.states.len() {
        if states.contains(&state) {
            write_body(&mut edited, state, random);
        } else {
            let body = table.states[state].command;
            edited.states[state].command = edited.copy(table, Family::Command, body);
        }
    }
    edited.renumber(random);
    edited
}

/// A new body that keeps every rule.
pub fn write_body(table: &mut Table, state: usize, random: &mut Random) {
    let size = odd(7, random);
    let mut author = Author::new(table, random);
    author.write_state(state, size);
    for slot in author.finish() {
        let size = odd(4, random);
        let root = Author::new(table, random).write_expression(&slot.palette, size);
        table.commands[slot.command].a = root;
    }
}

/// One of so many odd numbers.
fn odd(count: usize, random: &mut Random) -> usize {
    1 + 2 * random.below(count)
}

/// Some nodes of these bodies changed in turn, each change kept where the design is still accepted: what the
/// rules leave free, and the author of bodies does not write.
pub fn tampered(
    mut table: Table,
    states: &[usize],
    mut accepted: impl FnMut(&Table) -> bool,
    random: &mut Random,
) -> Table {
    for _ in 0..random.between(1, 6) {
        let state = *random.pick(states);
        let (family, number) = *random.pick(&table.nodes_of(state));
        let number = usize::from(number);
        let before = table.nodes(family)[number];
        table.nodes(family)[number] = another(&table, state, family, before, random);
        if !accepted(&table) {
            table.nodes(family)[number] = before;
        }
    }
    table
}

/// A node of the same shape, which may break any rule of flow and arguments.
fn another(table: &Table, state: usize, family: Family, node: Node, random: &mut Random) -> Node {
    let registers = 0..table.registers.len() as u8;
    let scope = table.scope(state).len() as u8;
    let parameters = PARAMETER_REGISTER..PARAMETER_REGISTER + scope;
    let names: Vec<u8> = registers.chain(parameters).collect();
    let constant = names.is_empty() || random.percent(30);
    match (family, node.kind) {
        (Family::Command, ASSIGN) => Node {
            which: *random.pick(&names),
            ..node
        },
        (Family::Command, FALL | GOTO) if state != 0 => transfer(table, state, &names, random),
        (Family::Expression, CONSTANT | READ) if constant => Node::constant(random.value()),
        (Family::Expression, CONSTANT | READ) => Node {
            kind: READ,
            which: *random.pick(&names),
            ..Node::default()
        },
        (Family::Expression, _) => Node {
            kind: random.between(2, LAST_OPERATION.into()) as u8,
            ..node
        },
        _ => node,
    }
}

/// A fall, or a goto to any sibling with any arguments.
fn transfer(table: &Table, state: usize, names: &[u8], random: &mut Random) -> Node {
    let siblings = table.children(table.states[state].parent.into());
    let which = *random.pick(&siblings);
    let taken = table.states[usize::from(which)].count;
    if random.percent(30) || (taken > 0 && names.is_empty()) {
        return Node {
            kind: FALL,
            ..Node::default()
        };
    }
    let mut argument = |own| match own < taken {
        true => u16::from(*random.pick(names)),
        false => 0,
    };
    Node {
        kind: GOTO,
        which,
        a: argument(0),
        b: argument(1),
        c: 0,
    }
}

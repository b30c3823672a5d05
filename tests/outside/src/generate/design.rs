//! Random designs that keep every rule by construction.

use super::body::Author;
use super::lattice::{largest_lattice, lattice};
use super::parameters::{add_parameters, fill_with_parameters};
use super::random::Random;
use super::size::Size;
use crate::reference::image::{CONSTANT, INNER, LAST_OPERATION, PORT, SIGNED_LESS};
use crate::reference::limits::{MOST_LABELS, WIDEST};
use crate::table::{Node, State, Table};

/// Without parameters.
pub fn design(random: &mut Random, size: Size) -> Table {
    written(random, size, |_, _| ())
}

/// With parameters, unless no tree of so many states comes out that has room for one.
pub fn parameterised(random: &mut Random, size: Size) -> Table {
    for _ in 0..4 {
        let table = written(random, size, add_parameters);
        if table.has_parameters() {
            return table;
        }
    }
    written(random, size, add_parameters)
}

/// With two parameters in every state that may take some: all states stand below the root, and only it and
/// its default child have none.
pub fn full_of_parameters(random: &mut Random, size: Size) -> Table {
    written(random, size, fill_with_parameters)
}

/// With parameters or without, as often.
pub fn any_design(random: &mut Random, size: Size) -> Table {
    if random.percent(50) {
        parameterised(random, size)
    } else {
        design(random, size)
    }
}

/// What is done to the states before their bodies are written draws no numbers where it does nothing, so
/// that designs without parameters are what they were.
fn written(random: &mut Random, size: Size, change: fn(&mut Random, &mut Table)) -> Table {
    let rows = if size.labels == MOST_LABELS {
        largest_lattice(random)
    } else {
        lattice(random, size.labels)
    };
    let mut table = Table::new(&rows);
    for _ in 0..size.registers {
        let label = random.below(rows.len()) as u8;
        // Rather an inner one: only these are assigned to.
        let kind = if random.percent(40) { PORT } else { INNER };
        table.register(label, kind, random.value(), WIDEST);
    }
    table.states = states(random, &table, size.states);
    change(random, &mut table);
    write_bodies(random, &mut table, size);
    table.renumber(random);
    narrow(random, &mut table);
    sharpen(random, &mut table);
    table
}

/// Widths come last, so that they leave the bodies of a seed as they are. Reset values stay within,
/// mostly at a boundary.
fn narrow(random: &mut Random, table: &mut Table) {
    for register in &mut table.registers {
        register.width = random.width();
        register.reset = random.fitting(register.width);
    }
}

/// Constants that are parts of the signed operations are often at an edge: of two chosen for
/// themselves hardly ever both would be. These come last as well.
fn sharpen(random: &mut Random, table: &mut Table) {
    for owner in 0..table.expressions.len() {
        let Node { kind, a, b, .. } = table.expressions[owner];
        if !(SIGNED_LESS..=LAST_OPERATION).contains(&kind) {
            continue;
        }
        for part in [a, b].map(usize::from) {
            if table.expressions[part].kind == CONSTANT && random.percent(50) {
                table.expressions[part] = Node::constant(random.edge());
            }
        }
    }
}

/// A tree of some shape; labels rise from parent to child, but for spare children, which have any.
fn states(random: &mut Random, table: &Table, count: usize) -> Vec<State> {
    let shape = random.below(5);
    let groups = count.div_ceil(4);
    let stay = random.below(100);
    let spare = *random.pick(&[0, 30, 60]);
    let mut states = vec![State::default()];
    for number in 1..count {
        let parent = match shape {
            0 => number - 1,
            1 => 0,
            2 => random.between(number.saturating_sub(4), number - 1),
            // Groups below the root, and children below these.
            3 if number <= groups => 0,
            3 => random.between(1, groups),
            _ => random.below(number),
        };
        // The body of a state whose default child is a spare one holds no fall: rather few.
        let is_default = !states[1..]
            .iter()
            .any(|state| usize::from(state.parent) == parent);
        let spare = if is_default { spare / 4 } else { spare };
        let below = states[parent].label;
        let above: Vec<u8> = (0..table.rows.len() as u8)
            .filter(|&label| table.flows(below, label))
            .collect();
        // Many equal labels, so that there are siblings to go to.
        let label = if random.percent(spare) {
            random.below(table.rows.len()) as u8
        } else if random.percent(stay) {
            below
        } else {
            *random.pick(&above)
        };
        states.push(State {
            parent: parent as u8,
            label,
            ..State::default()
        });
    }
    states
}

fn write_bodies(random: &mut Random, table: &mut Table, size: Size) {
    let lengths = shares(random, table.states.len(), size.commands);
    let mut author = Author::new(table, random);
    for (state, length) in lengths.into_iter().enumerate() {
        author.write_state(state, length);
    }
    author.fit_slots(size.expressions);
    let slots = author.finish();
    let lengths = shares(random, slots.len(), size.expressions);
    for (slot, length) in slots.into_iter().zip(lengths) {
        let root = Author::new(table, random).write_expression(&slot.palette, length);
        table.commands[slot.command].a = root;
    }
}

/// Cuts a total into odd shares: every tree of nodes with two parts or none is odd.
fn shares(random: &mut Random, count: usize, total: usize) -> Vec<usize> {
    let mut shares = vec![1; count];
    if count == 0 {
        return shares;
    }
    let pairs = total.saturating_sub(count) / 2;
    // Often one share takes nearly all, for deep trees.
    let (favourite, favour) = (random.below(count), *random.pick(&[0, 0, 50, 90]));
    for _ in 0..pairs {
        let share = if random.percent(favour) {
            favourite
        } else {
            random.below(count)
        };
        shares[share] += 2;
    }
    shares
}

/// A node that is not yet written.
pub const EMPTY: Node = Node {
    kind: 0,
    which: 0,
    a: 0,
    b: 0,
    c: 0,
};

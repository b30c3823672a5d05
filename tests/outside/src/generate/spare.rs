//! States that can never run, put into a design, and designs in which many can: request E11.

use super::edit::write_body;
use super::parameters::add_parameters_to;
use super::random::Random;
use super::{any_design, Size};
use crate::reference::image::{FALL, GOTO};
use crate::reference::limits::{MOST_COMMANDS, MOST_EXPRESSIONS, MOST_STATES, PARAMETER_LABEL};
use crate::table::{Family, State, Table};

/// The design with some more states, to which no state of its own leads: they have any numbers, stand below any
/// state and below each other, and lead where they may. It comes back as it is where it has no room for them.
pub fn with_spares(table: &Table, random: &mut Random) -> Table {
    let mut grown = table.clone();
    let mut spares = Vec::new();
    for _ in 0..*random.pick(&[1, 1, 2, 3, 5, 9]) {
        if grown.states.len() < MOST_STATES {
            insert(&mut grown, &mut spares, random);
        }
    }
    spares.sort_unstable();
    if random.percent(50) {
        add_parameters_to(random, &mut grown, &spares);
    }
    for &spare in &spares {
        write_body(&mut grown, spare, random);
    }
    if grown.commands.len() > MOST_COMMANDS || grown.expressions.len() > MOST_EXPRESSIONS {
        return table.clone();
    }
    // Else the nodes of the new states are the last.
    if random.percent(80) {
        grown.renumber(random);
    }
    grown
}

/// A state without a body. It becomes the default child of no state that holds a fall.
fn insert(table: &mut Table, spares: &mut Vec<usize>, random: &mut Random) {
    let parent = match spares.is_empty() || random.percent(60) {
        true => random.below(table.states.len()),
        false => *random.pick(spares),
    };
    let children = table.children(parent);
    let falls = !spares.contains(&parent) && holds_fall(table, parent);
    let lowest = match children.first() {
        Some(&default) if falls => usize::from(default) + 1,
        _ => parent + 1,
    };
    let number = random.between(lowest, table.states.len());
    let above = table.states[parent].label;
    // A parameter's label is one of its scope, which a state below has too.
    let label = match above >= PARAMETER_LABEL || random.percent(60) {
        true => above,
        false => random.below(table.rows.len()) as u8,
    };
    make_room(table, number as u8);
    for spare in spares.iter_mut().filter(|spare| **spare >= number) {
        *spare += 1;
    }
    let parent = parent as u8;
    table.states.insert(
        number,
        State {
            parent,
            label,
            ..State::default()
        },
    );
    spares.push(number);
}

/// The states from this number on have one more.
fn make_room(table: &mut Table, number: u8) {
    let moved = |state: &mut u8| *state += u8::from(*state >= number);
    for state in &mut table.states {
        moved(&mut state.parent);
    }
    let gotos = table.commands.iter_mut().filter(|node| node.kind == GOTO);
    for node in gotos {
        moved(&mut node.which);
    }
}

fn holds_fall(table: &Table, state: usize) -> bool {
    let mut nodes = table.nodes_of(state).into_iter();
    nodes.any(|(family, number)| {
        family == Family::Command && table.commands[usize::from(number)].kind == FALL
    })
}

/// A design with few states, and bodies long enough to lead to many of them.
pub fn lively(random: &mut Random) -> Table {
    let states = random.between(3, 14);
    let size = Size {
        labels: *random.pick(&[1, 2, 2, 3, 5]),
        registers: random.between(0, 8),
        states,
        commands: states * random.between(5, 15),
        expressions: random.between(10, 150),
    };
    any_design(random, size)
}

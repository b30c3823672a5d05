//! Another design that differs from a given one at one place: request E12 tells the two apart.

use super::random::Random;
use crate::reference;
use crate::reference::image::{Bounds, CONSTANT, GOTO, LAST_OPERATION, READ};
use crate::table::{Family, Node, Table};

/// What is changed.
#[derive(Clone, Copy, Debug, PartialEq, Eq)]
pub enum Change {
    Row,
    RegisterLabel,
    RegisterKind,
    Reset,
    Width,
    StateLabel,
    Bounds,
    Constant,
    /// The register of an assignment or a read, the state of a goto, or an operation.
    Named,
    Argument,
    /// The two parts of a node.
    Parts,
    /// The bodies of two states.
    Bodies,
}

pub const CHANGES: [Change; 12] = [
    Change::Row,
    Change::RegisterLabel,
    Change::RegisterKind,
    Change::Reset,
    Change::Width,
    Change::StateLabel,
    Change::Bounds,
    Change::Constant,
    Change::Named,
    Change::Argument,
    Change::Parts,
    Change::Bodies,
];

/// So often a change is tried at some place.
const TRIES: usize = 12;

/// An accepted design that is another one by this change alone, if some try comes to one.
pub fn changed(table: &Table, change: Change, random: &mut Random) -> Option<Table> {
    (0..TRIES).find_map(|_| {
        let mut other = table.clone();
        try_change(&mut other, change, random)?;
        let accepted = reference::check(&other.image()).number == 0;
        (accepted && !other.is_renumbered(table)).then_some(other)
    })
}

/// Nothing, where the design has no such place.
fn try_change(table: &mut Table, change: Change, random: &mut Random) -> Option<()> {
    let labels = table.rows.len();
    let any_label = |random: &mut Random| random.below(labels) as u8;
    match change {
        Change::Row => *any(&mut table.rows, random)? ^= 1 << random.below(labels),
        Change::RegisterLabel => any(&mut table.registers, random)?.label = any_label(random),
        Change::RegisterKind => any(&mut table.registers, random)?.kind ^= 1,
        Change::Reset => {
            let register = any(&mut table.registers, random)?;
            register.reset = random.fitting(register.width);
        }
        Change::Width => any(&mut table.registers, random)?.width = random.width(),
        Change::StateLabel => any(&mut table.states, random)?.label = any_label(random),
        Change::Bounds => {
            let mut states: Vec<_> = (table.states.iter_mut())
                .filter(|state| state.count > 0)
                .collect();
            let state = any(&mut states, random)?;
            let own = random.below(state.count.into());
            let Bounds { lower, upper } = &mut state.bounds[own];
            let bound = if random.percent(50) { lower } else { upper };
            *bound = any_label(random);
        }
        Change::Constant => {
            let node = any_node(table, Family::Expression, random, |node| {
                node.kind == CONSTANT
            })?;
            let bit = 1 << random.below(16);
            let field = if random.percent(50) {
                &mut node.b
            } else {
                &mut node.c
            };
            *field ^= bit;
        }
        Change::Named => change_name(table, random)?,
        Change::Argument => {
            let registers = table.registers.len().max(1);
            let node = any_node(table, Family::Command, random, |node| node.kind == GOTO)?;
            let field = if random.percent(70) {
                &mut node.a
            } else {
                &mut node.b
            };
            *field = random.below(registers) as u16;
        }
        Change::Parts => exchange_parts(table, random)?,
        Change::Bodies => {
            let (one, other) = (
                random.below(table.states.len()),
                random.below(table.states.len()),
            );
            let command = table.states[one].command;
            table.states[one].command = table.states[other].command;
            table.states[other].command = command;
        }
    }
    Some(())
}

fn change_name(table: &mut Table, random: &mut Random) -> Option<()> {
    let (registers, states) = (table.registers.len().max(1), table.states.len());
    if random.percent(50) {
        let node = any_node(table, Family::Expression, random, |node| {
            node.kind != CONSTANT
        })?;
        match node.kind {
            READ => node.which = random.below(registers) as u8,
            _ => node.kind = random.between(2, LAST_OPERATION.into()) as u8,
        }
    } else {
        let named = |node: &Node| matches!(node.kind, 1 | GOTO);
        let node = any_node(table, Family::Command, random, named)?;
        let most = if node.kind == GOTO { states } else { registers };
        node.which = random.below(most) as u8;
    }
    Some(())
}

fn exchange_parts(table: &mut Table, random: &mut Random) -> Option<()> {
    let family = *random.pick(&[Family::Command, Family::Expression]);
    let has_parts = |node: &Node| !node.clone().own_parts(family).is_empty();
    let node = any_node(table, family, random, has_parts)?;
    let mut parts = node.own_parts(family);
    let (first, second) = parts.split_at_mut(1);
    std::mem::swap(&mut *first[0], &mut *second[0]);
    Some(())
}

fn any<'a, T>(items: &'a mut [T], random: &mut Random) -> Option<&'a mut T> {
    match items.len() {
        0 => None,
        count => Some(&mut items[random.below(count)]),
    }
}

fn any_node<'a>(
    table: &'a mut Table,
    family: Family,
    random: &mut Random,
    is_such: impl Fn(&Node) -> bool,
) -> Option<&'a mut Node> {
    let nodes = table.nodes(family);
    let mut such: Vec<&mut Node> = nodes.iter_mut().filter(|node| is_such(node)).collect();
    match such.len() {
        0 => None,
        count => Some(such.swap_remove(random.below(count))),
    }
}

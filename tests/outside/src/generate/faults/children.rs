//! Faults in the labels of default children (refusal 9).

use super::flow::Tree;
use super::shape::{leaf, numbers};
use crate::generate::random::Random;
use crate::reference::limits::{MOST_PARAMETERS, PARAMETER_LABEL};
use crate::table::Table;

/// A state holds a fall, somewhere in its body, and its default child is not at or above it.
pub fn spoil_child(table: &mut Table, random: &mut Random) {
    let groups: Vec<usize> = (1..table.states.len())
        .filter(|&state| !table.children(state).is_empty())
        .collect();
    if groups.is_empty() {
        return;
    }
    for _ in 0..20 {
        let group = *random.pick(&groups);
        let child = usize::from(table.children(group)[0]);
        if set_apart(table, group, child, random) {
            return hold_fall(table, group, random);
        }
    }
}

/// Tries another label in either of the two, unless the child is low already.
fn set_apart(table: &mut Table, group: usize, child: usize, random: &mut Random) -> bool {
    let scope = table.scope(child);
    let low = |table: &Table| {
        let label = |state: usize| table.states[state].label;
        !table.always_flows(&scope, label(group), label(child))
    };
    if low(table) {
        return true;
    }
    let changed = *random.pick(&[group, child]);
    let old = table.states[changed].label;
    let group_scope = table.scope(group).len().min(MOST_PARAMETERS);
    table.states[changed].label = if group_scope > 0 && random.percent(50) {
        PARAMETER_LABEL + random.below(group_scope) as u8
    } else {
        random.below(table.rows.len()) as u8
    };
    if low(table) {
        return true;
    }
    table.states[changed].label = old;
    false
}

/// A goto becomes a fall where there is none yet, and sometimes beside others.
fn hold_fall(table: &mut Table, state: usize, random: &mut Random) {
    let tree = Tree::of(table);
    let own = |kind| {
        let mut own = numbers(table, |node| node.kind == kind);
        own.retain(|&number| tree.state(number) == state);
        own
    };
    let (falls, gotos) = (own(3), own(4));
    let wanted = falls.is_empty() || random.percent(20);
    if wanted && !gotos.is_empty() {
        table.commands[*random.pick(&gotos)] = leaf(3, 0);
    }
}

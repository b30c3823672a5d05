//! The same design under other node numbers, every part still below its owner: request E12.

use super::random::Random;
use crate::table::{Family, Table};

/// All numbers anew, or only two exchanged that stand side by side. It may come back as it is.
pub fn renumbered(table: &Table, random: &mut Random) -> Table {
    let mut other = table.clone();
    match random.below(5) {
        0 => exchange(&mut other, Family::Command, random),
        1 => exchange(&mut other, Family::Expression, random),
        _ => {
            other.renumber(random);
        }
    }
    other
}

/// Two neighbours change places, unless one is a part of the other.
fn exchange(table: &mut Table, family: Family, random: &mut Random) {
    let nodes = table.nodes(family);
    if nodes.len() < 2 {
        return;
    }
    let upper = random.between(1, nodes.len() - 1);
    let lower = upper - 1;
    let mut owner = nodes[upper];
    let mut parts = owner.own_parts(family).into_iter();
    if parts.any(|part| usize::from(*part) == lower) {
        return;
    }
    nodes.swap(lower, upper);
    let move_one = |number: &mut u16| match usize::from(*number) {
        old if old == lower => *number += 1,
        old if old == upper => *number -= 1,
        _ => {}
    };
    let parts = nodes.iter_mut().flat_map(|node| node.own_parts(family));
    parts.for_each(move_one);
    match family {
        Family::Command => {
            let states = table.states.iter_mut();
            states.for_each(|state| move_one(&mut state.command));
        }
        Family::Expression => {
            let used = table
                .commands
                .iter_mut()
                .filter_map(|node| node.expression());
            used.for_each(move_one);
        }
    }
}

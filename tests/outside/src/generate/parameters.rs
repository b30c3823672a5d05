//! Parameters of states, request E8: before the bodies are written, so that these pass registers and
//! parameters as they can.

use super::random::Random;
use crate::reference::image::{Bounds, INNER};
use crate::reference::limits::{MOST_PARAMETERS, PARAMETER_LABEL};
use crate::table::Table;

/// Gives states that are no default children parameters, and states that have some in scope the label of
/// one.
pub fn add_parameters(random: &mut Random, table: &mut Table) {
    let states: Vec<usize> = (1..table.states.len()).collect();
    add_parameters_to(random, table, &states);
}

/// To some of these states, which stand in order, and below which only these stand.
pub fn add_parameters_to(random: &mut Random, table: &mut Table, states: &[usize]) {
    let share = *random.pick(&[30, 70, 100]);
    let labelled = *random.pick(&[20, 50, 80]);
    for &state in states {
        let outer = table.scope(state).len();
        if !is_default_child(table, state) && outer < MOST_PARAMETERS && random.percent(share) {
            // Often one, so that a state below has room for another.
            let count = *random.pick(&[1, 1, MOST_PARAMETERS - outer]);
            table.states[state].count = count as u8;
            for own in 0..count {
                table.states[state].bounds[own] = any_bounds(table, random);
            }
            // Then the two may be passed in either order.
            if count == MOST_PARAMETERS && random.percent(30) {
                table.states[state].bounds[1] = table.states[state].bounds[0];
            }
        }
        let scope = table.scope(state).len();
        let parent = usize::from(table.states[state].parent);
        let of_parent = table.states[parent].label;
        if of_parent >= PARAMETER_LABEL && is_default_child(table, state) && random.percent(70) {
            // At or above the parent for each choice, so that it may fall.
            table.states[state].label = of_parent;
        } else if scope > 0 && random.percent(labelled) {
            // Rather an own one.
            let number = scope - 1 - random.below(scope * scope) / scope;
            table.states[state].label = PARAMETER_LABEL + number as u8;
        }
    }
}

/// Puts all states below the root and gives all but the default child two parameters.
pub fn fill_with_parameters(random: &mut Random, table: &mut Table) {
    for state in 1..table.states.len() {
        table.states[state].parent = 0;
    }
    for state in 2..table.states.len() {
        let bounds = [(); MOST_PARAMETERS].map(|_| any_bounds(table, random));
        let record = &mut table.states[state];
        record.count = MOST_PARAMETERS as u8;
        record.bounds = bounds;
        if random.percent(50) {
            record.label = PARAMETER_LABEL + random.below(MOST_PARAMETERS) as u8;
        }
    }
}

pub fn is_default_child(table: &Table, state: usize) -> bool {
    let parent = usize::from(table.states[state].parent);
    table.children(parent).first() == Some(&(state as u8))
}

/// Mostly around the label of an inner register, which may then be passed; often wide.
fn any_bounds(table: &Table, random: &mut Random) -> Bounds {
    let inner = table.of_kind(INNER);
    let middle = if inner.is_empty() || random.percent(10) {
        random.below(table.rows.len()) as u8
    } else {
        table.registers[usize::from(*random.pick(&inner))].label
    };
    let labels = 0..table.rows.len() as u8;
    let below: Vec<u8> = labels.clone().filter(|&l| table.flows(l, middle)).collect();
    let above: Vec<u8> = labels.filter(|&l| table.flows(middle, l)).collect();
    let (mut lower, mut upper) = (*random.pick(&below), *random.pick(&above));
    match random.below(6) {
        0 => lower = middle,
        1 => upper = middle,
        2 => (lower, upper) = (middle, middle),
        3 => lower = 0,
        _ => {}
    }
    Bounds { lower, upper }
}

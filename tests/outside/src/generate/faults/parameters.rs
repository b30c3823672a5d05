//! Faults in parameters (refusal 19): counts, bounds, scopes and arguments.

use super::flow::Tree;
use super::shape::numbers;
use crate::generate::parameters::is_default_child;
use crate::generate::random::Random;
use crate::reference::image::{Bounds, INNER};
use crate::reference::limits::{
    MOST_LABELS, MOST_PARAMETERS, MOST_REGISTERS, PARAMETER_LABEL, PARAMETER_REGISTER,
};
use crate::table::{Family, Node, Table};

/// Tries until some fault finds what it needs.
pub fn spoil_parameter(table: &mut Table, random: &mut Random) {
    for _ in 0..20 {
        let done = match random.below(12) {
            0 => spoil_count(table, random),
            1 => spoil_default_child(table, random),
            2 => spoil_number_in_scope(table, random),
            3 => spoil_bound(table, random),
            4 => spoil_unused_pair(table, random),
            5 | 6 => spoil_label(table, random),
            7 | 8 => spoil_register_byte(table, random),
            9 | 10 => spoil_argument(table, random),
            _ => spoil_unused_field(table, random),
        };
        if done {
            return;
        }
    }
}

/// More than two, with bounds that hold.
fn spoil_count(table: &mut Table, random: &mut Random) -> bool {
    let state = random.index(table.states.len());
    table.states[state].count = *random.pick(&[3, 3, 4, 64, 255]);
    true
}

/// The root or a default child has one, whether or not its parent holds a fall.
fn spoil_default_child(table: &mut Table, random: &mut Random) -> bool {
    let state = if random.percent(20) {
        0
    } else {
        random.below(table.states.len())
    };
    let takes_none = state == 0 || is_default_child(table, state);
    if takes_none && table.scope(state).len() < MOST_PARAMETERS {
        table.states[state].count = 1;
    }
    takes_none
}

/// A state below others with parameters has one too many.
fn spoil_number_in_scope(table: &mut Table, random: &mut Random) -> bool {
    let mut below: Vec<usize> = (1..table.states.len()).collect();
    below.retain(|&state| table.first_own(state) > 0 && !is_default_child(table, state));
    if below.is_empty() {
        return false;
    }
    let state = *random.pick(&below);
    let outer = table.first_own(state);
    let least = (MOST_PARAMETERS + 1).saturating_sub(outer).max(1);
    table.states[state].count = least.min(MOST_PARAMETERS) as u8;
    least <= MOST_PARAMETERS
}

/// A bound that is no label, or a lower one that does not flow to its upper.
fn spoil_bound(table: &mut Table, random: &mut Random) -> bool {
    let mut taking: Vec<usize> = (0..table.states.len()).collect();
    taking.retain(|&state| table.states[state].count > 0);
    if taking.is_empty() {
        return false;
    }
    let labels = table.rows.len() as u8;
    let state = taking[random.index(taking.len())];
    let count = table.states[state].pairs().len();
    let pair = random.below(count);
    let flows = |pair: Bounds| table.flows(pair.lower, pair.upper);
    let any = |random: &mut Random| Bounds {
        lower: random.below(labels.into()) as u8,
        upper: random.below(labels.into()) as u8,
    };
    let mut bounds = table.states[state].bounds[pair];
    match random.below(4) {
        0 => bounds.lower = *random.pick(&[labels, MOST_LABELS as u8, 17, 255]),
        1 => bounds.upper = *random.pick(&[labels, MOST_LABELS as u8, 17, 255]),
        2 => (bounds.lower, bounds.upper) = (bounds.upper, bounds.lower),
        _ => {
            for _ in 0..10 {
                bounds = any(random);
                if !flows(bounds) {
                    break;
                }
            }
        }
    }
    let spoiled = !flows(bounds);
    if spoiled {
        table.states[state].bounds[pair] = bounds;
    }
    spoiled
}

fn spoil_unused_pair(table: &mut Table, random: &mut Random) -> bool {
    let state = random.index(table.states.len());
    let record = &mut table.states[state];
    let used = record.pairs().len();
    if used == MOST_PARAMETERS {
        return false;
    }
    let pair = random.between(used, MOST_PARAMETERS - 1);
    let Bounds { lower, upper } = &mut record.bounds[pair];
    let bound = if random.percent(50) { lower } else { upper };
    *bound = *random.pick(&[1, 1, 16, 255]);
    true
}

/// A label byte that stands for a parameter which is not in scope, the next one mostly.
fn spoil_label(table: &mut Table, random: &mut Random) -> bool {
    let state = random.index(table.states.len());
    let scope = table.scope(state).len();
    if scope >= MOST_PARAMETERS {
        return false;
    }
    let number = random.between(scope, MOST_PARAMETERS - 1);
    table.states[state].label = PARAMETER_LABEL + number as u8;
    true
}

/// An assignment or a read of a parameter which is not in scope.
fn spoil_register_byte(table: &mut Table, random: &mut Random) -> bool {
    let tree = Tree::of(table);
    let commands = numbers(table, |node| matches!(node.kind, 1 | 5));
    if commands.is_empty() {
        return false;
    }
    let command = commands[random.index(commands.len())];
    let scope = table.scope(tree.state(command)).len();
    if scope >= MOST_PARAMETERS {
        return false;
    }
    let number = random.between(scope, MOST_PARAMETERS - 1);
    let wrong = PARAMETER_REGISTER + number as u8;
    if table.commands[command].kind == 1 && random.percent(50) {
        table.commands[command].which = wrong;
        return true;
    }
    let mut expression = usize::from(table.commands[command].a);
    while let Node {
        kind: 2.., a, b, ..
    } = table.nodes(Family::Expression)[expression]
    {
        expression = usize::from(*random.pick(&[a, b]));
    }
    table.expressions[expression] = Node {
        kind: 1,
        which: wrong,
        ..Node::default()
    };
    true
}

/// What a goto passes is not within the bounds, not in scope, or nothing at all. Of ports 16 speaks.
fn spoil_argument(table: &mut Table, random: &mut Random) -> bool {
    let tree = Tree::of(table);
    let count = |table: &Table, node: &Node| table.states[usize::from(node.which)].pairs().len();
    let gotos = numbers(table, |node| node.kind == 4 && count(table, node) > 0);
    if gotos.is_empty() {
        return false;
    }
    let goto = gotos[random.index(gotos.len())];
    let field = random.below(count(table, &table.commands[goto]));
    let named = table.states[usize::from(table.commands[goto].which)];
    let scope = table.scope(tree.state(goto));
    let fits = |byte: u8| table.always_within(&scope, byte, named.bounds[field]);
    let registers = table.registers.len() as u16;
    let wrong: Vec<u16> = match random.below(4) {
        0 => vec![
            registers,
            MOST_REGISTERS as u16 + 2,
            255,
            256,
            256 + 64,
            u16::MAX,
        ],
        1 => (scope.len()..MOST_PARAMETERS)
            .map(|number| u16::from(PARAMETER_REGISTER) + number as u16)
            .collect(),
        2 => (0..scope.len().min(MOST_PARAMETERS) as u8)
            .map(|number| PARAMETER_REGISTER + number)
            .filter(|&byte| !fits(byte))
            .map(u16::from)
            .collect(),
        _ => (table.of_kind(INNER).into_iter())
            .filter(|&byte| !fits(byte))
            .map(u16::from)
            .collect(),
    };
    if wrong.is_empty() {
        return false;
    }
    let node = &mut table.commands[goto];
    *[&mut node.a, &mut node.b][field] = *random.pick(&wrong);
    true
}

/// A field that carries no argument.
fn spoil_unused_field(table: &mut Table, random: &mut Random) -> bool {
    let used = |table: &Table, node: &Node| table.states[usize::from(node.which)].pairs().len();
    let gotos = numbers(table, |node| {
        node.kind == 4 && used(table, node) < MOST_PARAMETERS
    });
    if gotos.is_empty() {
        return false;
    }
    let goto = gotos[random.index(gotos.len())];
    let field = random.between(used(table, &table.commands[goto]), MOST_PARAMETERS - 1);
    let node = &mut table.commands[goto];
    *[&mut node.a, &mut node.b][field] = *random.pick(&[1, 1, 64, 65, 256, u16::MAX]);
    true
}

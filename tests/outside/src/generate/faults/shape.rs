//! Faults in shape and in what assignments name (refusals 8 and 16).

use super::flow::Tree;
use crate::generate::random::Random;
use crate::reference::image::PORT;
use crate::reference::limits::MOST_PARAMETERS;
use crate::table::{Node, Table};

pub fn spoil_shape(table: &mut Table, random: &mut Random) {
    let tree = Tree::of(table);
    let states = table.states.len();
    match random.below(6) {
        // A leaf that transfers where none may, or does not where it must.
        0 | 1 => {
            let leaves = numbers(table, |node| matches!(node.kind, 0 | 1 | 3 | 4));
            let number = *random.pick(&leaves);
            let own = tree.state(number) as u8;
            if table.commands[number].kind == 1 {
                // Its expression would stay unused.
                return spoil_goto_name(table, &tree, random);
            }
            table.commands[number] = match random.below(3) {
                0 => Node::default(),
                1 => leaf(3, 0),
                _ => leaf(4, own),
            };
        }
        // A fall in a state without a child.
        2 => {
            let gotos = numbers(table, |node| node.kind == 4);
            if !gotos.is_empty() {
                table.commands[*random.pick(&gotos)] = leaf(3, 0);
            }
        }
        // The parts of a sequence change places.
        3 => {
            let sequences = numbers(table, |node| node.kind == 2);
            if !sequences.is_empty() {
                let node = &mut table.commands[*random.pick(&sequences)];
                (node.a, node.b) = (node.b, node.a);
            }
        }
        // The root goes to itself or to a child.
        4 => {
            let falls = numbers(table, |node| node.kind == 3);
            let of_root: Vec<usize> = falls.into_iter().filter(|&n| tree.state(n) == 0).collect();
            if !of_root.is_empty() {
                let any = random.below(states) as u8;
                let to = *random.pick(&[0, 1, any]);
                table.commands[*random.pick(&of_root)] = leaf(4, to);
            }
        }
        _ => spoil_goto_name(table, &tree, random),
    }
}

/// A goto names the root, the parent, a child, or any state.
fn spoil_goto_name(table: &mut Table, tree: &Tree, random: &mut Random) {
    let gotos = numbers(table, |node| node.kind == 4);
    if gotos.is_empty() {
        return;
    }
    let number = *random.pick(&gotos);
    let own = tree.state(number);
    let child = table.children(own).first().copied().unwrap_or(0);
    let parent = table.states[own].parent;
    let any = random.below(table.states.len()) as u8;
    table.commands[number].which = *random.pick(&[0, parent, child, any]);
}

/// Some assignment, not only the first, names a port, or some goto passes one.
pub fn spoil_port(table: &mut Table, random: &mut Random) {
    let assigns = numbers(table, |node| node.kind == 1);
    let takes = |node: &Node| table.states[usize::from(node.which)].count;
    let passes = numbers(table, |node| node.kind == 4 && takes(node) > 0);
    let ports = table.of_kind(PORT);
    if !passes.is_empty() && !ports.is_empty() && (assigns.is_empty() || random.percent(60)) {
        let number = passes[random.index(passes.len())];
        let count = usize::from(takes(&table.commands[number])).min(MOST_PARAMETERS);
        let node = &mut table.commands[number];
        let field = random.below(count);
        *[&mut node.a, &mut node.b][field] = u16::from(*random.pick(&ports));
        return;
    }
    if assigns.is_empty() {
        return;
    }
    let number = assigns[random.index(assigns.len())];
    let register = usize::from(table.commands[number].which);
    if register < table.registers.len() && (ports.is_empty() || random.percent(30)) {
        // And with it every other assignment to its register; all flows stay as they were.
        table.registers[register].kind = PORT;
    } else if !ports.is_empty() {
        table.commands[number].which = *random.pick(&ports);
    }
}

pub fn leaf(kind: u8, which: u8) -> Node {
    Node {
        kind,
        which,
        ..Node::default()
    }
}

pub fn numbers(table: &Table, wanted: impl Fn(&Node) -> bool) -> Vec<usize> {
    (0..table.commands.len())
        .filter(|&number| wanted(&table.commands[number]))
        .collect()
}

//! Request E12: the filing form of an image, and the earlier of two images by it. A whole has the last number of its
//! tree, and the trees of its parts stand right below it. So the sizes of all trees give every number: one pass
//! upwards for the sizes, one downwards for the numbers.

use super::calls::{answer, judge};
use super::image::*;
use super::limits::*;
use super::parts::{command_parts, expression_of, expression_parts};
use super::refusal::Refusal;
use crate::answer::{Answer, Which};

pub fn file(image: &[u8], out: &mut [u8]) -> Answer {
    answer(try_file(image, out))
}

fn try_file(bytes: &[u8], out: &mut [u8]) -> Result<usize, Refusal> {
    let form = form(bytes)?;
    let area = out.get_mut(..form.len()).ok_or(Refusal::new(24, 0))?;
    area.copy_from_slice(&form);
    Ok(form.len())
}

/// The one whose form comes first, the first if both have the same form.
pub fn earlier(first: &[u8], second: &[u8]) -> Which {
    let (Ok(one), Ok(other)) = (form(first), form(second)) else {
        return Which::REFUSED;
    };
    // Vectors are ordered byte by byte, a proper beginning first.
    if one <= other {
        Which {
            second: 0,
            len: first.len(),
        }
    } else {
        Which {
            second: 1,
            len: second.len(),
        }
    }
}

/// Only numbers change, so that every section stays where it is.
fn form(bytes: &[u8]) -> Result<Vec<u8>, Refusal> {
    let image = judge(bytes)?;
    let nodes: Vec<Node> = image.commands().collect();
    let mut commands = Trees::of(nodes, command_parts);
    commands.number(image.states().map(|state| state.command));
    // Where each expression tree stands, the commands decide, under their new numbers.
    let mut expressions = Trees::of(image.expressions().collect(), expression_parts);
    let in_order = commands.in_order();
    expressions.number(in_order.iter().filter_map(expression_of));

    let mut states: Vec<State> = image.states().collect();
    for state in &mut states {
        state.command = commands.number_of(state.command);
    }
    let all_nodes = NODE_BYTES * (commands.nodes.len() + expressions.nodes.len());
    let unchanged = bytes.len() - STATE_BYTES * states.len() - all_nodes;
    let mut form = bytes[..unchanged].to_vec();
    form.extend(states.iter().flat_map(State::bytes));
    for mut node in in_order {
        if expression_of(&node).is_some() {
            node.a = expressions.number_of(node.a);
        }
        match node.kind {
            SEQUENCE => commands.rename([&mut node.a, &mut node.b]),
            IF => commands.rename([&mut node.b, &mut node.c]),
            _ => {}
        }
        form.extend(node.bytes());
    }
    for mut node in expressions.in_order() {
        if !matches!(node.kind, CONSTANT | READ) {
            expressions.rename([&mut node.a, &mut node.b]);
        }
        form.extend(node.bytes());
    }
    Ok(form)
}

/// The nodes of one family.
struct Trees {
    nodes: Vec<Node>,
    parts: fn(&Node) -> Vec<u16>,
    /// How many nodes each has in its tree, itself too.
    sizes: Vec<u16>,
    numbers: Vec<u16>,
}

impl Trees {
    fn of(nodes: Vec<Node>, parts: fn(&Node) -> Vec<u16>) -> Trees {
        let mut sizes = vec![1; nodes.len()];
        for (place, node) in nodes.iter().enumerate() {
            // Parts stand below their owner, so their sizes are known.
            for part in parts(node) {
                sizes[place] += sizes[usize::from(part)];
            }
        }
        Trees {
            numbers: vec![0; nodes.len()],
            nodes,
            parts,
            sizes,
        }
    }

    /// One whole tree behind the other. Expects that every node is in one of them.
    fn number(&mut self, roots: impl Iterator<Item = u16>) {
        let mut end = 0;
        for root in roots {
            end += self.sizes[usize::from(root)];
            self.numbers[usize::from(root)] = end - 1;
        }
        for (place, node) in self.nodes.iter().enumerate().rev() {
            // The last part's tree ends right below the whole, the one before it where that begins.
            let mut end = self.numbers[place];
            for part in (self.parts)(node).into_iter().rev() {
                self.numbers[usize::from(part)] = end - 1;
                end -= self.sizes[usize::from(part)];
            }
        }
    }

    fn number_of(&self, old: u16) -> u16 {
        self.numbers[usize::from(old)]
    }

    fn rename(&self, parts: [&mut u16; 2]) {
        for part in parts {
            *part = self.number_of(*part);
        }
    }

    /// The nodes in the order of their new numbers, their parts still under the old ones.
    fn in_order(&self) -> Vec<Node> {
        let mut pairs: Vec<(u16, Node)> = self
            .numbers
            .iter()
            .copied()
            .zip(self.nodes.clone())
            .collect();
        pairs.sort_unstable_by_key(|(number, _)| *number);
        pairs.into_iter().map(|(_, node)| node).collect()
    }
}

//! Another numbering of the same trees: any order in which parts stand below their owners.

use super::{Family, Table};
use crate::generate::random::Random;

impl Table {
    /// Gives the new number of each command. Expects parts that stand below their owners.
    pub fn renumber(&mut self, random: &mut Random) -> Vec<u16> {
        let commands = self.reorder(Family::Command, random);
        for state in &mut self.states {
            state.command = commands[usize::from(state.command)];
        }
        let expressions = self.reorder(Family::Expression, random);
        for node in &mut self.commands {
            if let Some(part) = node.expression() {
                *part = expressions[usize::from(*part)];
            }
        }
        commands
    }

    /// Moves the nodes of one family and gives the new number of each.
    fn reorder(&mut self, family: Family, random: &mut Random) -> Vec<u16> {
        let nodes = self.nodes(family);
        let mut owners = vec![Vec::new(); nodes.len()];
        let mut missing = vec![0; nodes.len()];
        for (number, node) in nodes.iter_mut().enumerate() {
            for part in node.own_parts(family) {
                owners[usize::from(*part)].push(number);
                missing[number] += 1;
            }
        }
        let mut ready: Vec<usize> = (0..nodes.len()).filter(|&n| missing[n] == 0).collect();
        let mut numbers = vec![0; nodes.len()];
        let mut moved = Vec::with_capacity(nodes.len());
        while !ready.is_empty() {
            let number = ready.swap_remove(random.below(ready.len()));
            numbers[number] = moved.len() as u16;
            let mut node = nodes[number];
            for part in node.own_parts(family) {
                *part = numbers[usize::from(*part)];
            }
            moved.push(node);
            for &owner in &owners[number] {
                missing[owner] -= 1;
                if missing[owner] == 0 {
                    ready.push(owner);
                }
            }
        }
        *nodes = moved;
        numbers
    }
}

//! Bodies apart from node numbers, two designs that differ in nothing else, request E12, and two of which one is an
//! edit of the other that a level does not see: request E14.

use super::{Family, Node, State, Table};
use crate::reference::limits::PARAMETER_LABEL;
use std::mem;

impl Table {
    /// The nodes of a body in reading order, without the numbers of their parts: the kinds tell how many
    /// parts follow. Expects parts that stand below their owners.
    pub fn body(&self, state: usize) -> Vec<Node> {
        let nodes = self.nodes_of(state).into_iter();
        nodes
            .map(|(family, number)| parted(self.node(family, number), family).0)
            .collect()
    }

    /// The numbers of the nodes of a body, in the same order.
    pub fn nodes_of(&self, state: usize) -> Vec<(Family, u16)> {
        let mut ahead = vec![(Family::Command, self.states[state].command)];
        let mut nodes = Vec::new();
        while let Some((family, number)) = ahead.pop() {
            nodes.push((family, number));
            let (_, parts) = parted(self.node(family, number), family);
            ahead.extend(parts.into_iter().rev());
        }
        nodes
    }

    /// Adds a node of another table with all its parts, and gives its number here.
    pub fn copy(&mut self, from: &Table, family: Family, number: u16) -> u16 {
        let mut node = from.node(family, number);
        if family == Family::Command {
            if let Some(part) = node.expression() {
                *part = self.copy(from, Family::Expression, *part);
            }
        }
        for part in node.own_parts(family) {
            *part = self.copy(from, family, *part);
        }
        let nodes = self.nodes(family);
        nodes.push(node);
        (nodes.len() - 1) as u16
    }

    /// The state's label is a fixed one, and not at or below the level. A parameter's label is not fixed.
    pub fn may_be_edited(&self, state: usize, level: u8) -> bool {
        let label = self.states[state].label;
        label < PARAMETER_LABEL && !self.flows(label, level)
    }

    /// The same design apart from node numbers: request E12.
    pub fn is_renumbered(&self, other: &Table) -> bool {
        self.has_records_of(other)
            && (0..self.states.len()).all(|state| self.body(state) == other.body(state))
    }

    /// Equal labels and registers, equal state records apart from command numbers, and the same bodies except
    /// in states whose fixed label is not at or below the level.
    pub fn is_edited_out_of_sight(&self, other: &Table, level: u8) -> bool {
        let same = |state| self.body(state) == other.body(state);
        self.has_records_of(other)
            && (0..self.states.len()).all(|state| self.may_be_edited(state, level) || same(state))
    }

    /// Equal labels and registers, and equal state records apart from command numbers.
    fn has_records_of(&self, other: &Table) -> bool {
        let records = |table: &Table| -> Vec<State> {
            let states = table.states.iter();
            states
                .map(|&state| State {
                    command: 0,
                    ..state
                })
                .collect()
        };
        self.rows == other.rows
            && self.registers == other.registers
            && records(self) == records(other)
    }

    fn node(&self, family: Family, number: u16) -> Node {
        match family {
            Family::Command => self.commands[usize::from(number)],
            Family::Expression => self.expressions[usize::from(number)],
        }
    }
}

/// A node without the numbers of its parts, and these in reading order.
fn parted(mut node: Node, family: Family) -> (Node, Vec<(Family, u16)>) {
    let mut parts = Vec::new();
    if family == Family::Command {
        if let Some(part) = node.expression() {
            parts.push((Family::Expression, mem::take(part)));
        }
    }
    for part in node.own_parts(family) {
        parts.push((family, mem::take(part)));
    }
    (node, parts)
}

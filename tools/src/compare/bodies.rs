//! Which bodies are the same commands, with every node number left out.

use crate::table::node::{Command, Expression, Node};
use crate::table::Table;

/// The states whose bodies differ, of those that both designs have.
pub fn differing(old: &Table, new: &Table) -> Vec<usize> {
    let both = old.states.iter().zip(&new.states).enumerate();
    both.filter(|(_, (one, other))| unnumbered(old, one.command) != unnumbered(new, other.command))
        .map(|(state, _)| state)
        .collect()
}

/// A body as a list of nodes, each before its parts and with 0 for their numbers. The kind of a node says how
/// many parts it has, so equal lists are equal trees.
fn unnumbered(table: &Table, body: u16) -> Vec<Node> {
    let mut reading = Reading {
        table,
        nodes: Vec::new(),
    };
    reading.command(body);
    reading.nodes
}

struct Reading<'a> {
    table: &'a Table,
    nodes: Vec<Node>,
}

impl Reading<'_> {
    fn command(&mut self, number: u16) {
        let node = self.table.commands[usize::from(number)];
        match Command::of(node) {
            Some(Command::Assign { register, value }) => {
                self.nodes
                    .push(Command::Assign { register, value: 0 }.node());
                self.expression(value);
            }
            Some(Command::Sequence { first, second }) => {
                self.nodes.push(kind_alone(node));
                self.command(first);
                self.command(second);
            }
            Some(Command::If {
                condition,
                then,
                otherwise,
            }) => {
                self.nodes.push(kind_alone(node));
                self.expression(condition);
                self.command(then);
                self.command(otherwise);
            }
            // A skip, a fall and a goto have no parts.
            _ => self.nodes.push(node),
        }
    }

    fn expression(&mut self, number: u16) {
        let node = self.table.expressions[usize::from(number)];
        match Expression::of(node) {
            Some(Expression::Operation(_, left, right)) => {
                self.nodes.push(kind_alone(node));
                self.expression(left);
                self.expression(right);
            }
            _ => self.nodes.push(node),
        }
    }
}

/// Of a node whose other fields are the numbers of its parts.
fn kind_alone(node: Node) -> Node {
    Node {
        kind: node.kind,
        ..Node::default()
    }
}

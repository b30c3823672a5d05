//! The order of the filing form, request E12, and a design whose nodes stand in another order.

use crate::table::node::{Command, Expression, Node};
use crate::table::Table;

/// The nodes of a design in the order that a numbering gives them, by the numbers that they have.
#[derive(Clone, Debug, Default, PartialEq, Eq)]
pub struct Order {
    pub commands: Vec<u16>,
    pub expressions: Vec<u16>,
}

impl Order {
    /// That of the filing form, of an accepted design: state by state, parts before the whole, the first part
    /// first; then the expressions of each command in turn.
    pub fn of_form(table: &Table) -> Order {
        let mut order = Order::default();
        for state in &table.states {
            order.command(table, state.command);
        }
        for number in order.commands.clone() {
            let command = Command::of(table.commands[usize::from(number)]);
            match command.expect("an accepted node") {
                Command::Assign { value: used, .. }
                | Command::If {
                    condition: used, ..
                } => order.expression(table, used),
                _ => {}
            }
        }
        order
    }

    fn command(&mut self, table: &Table, number: u16) {
        let command = Command::of(table.commands[usize::from(number)]);
        match command.expect("an accepted node") {
            Command::Sequence { first, second } => {
                self.command(table, first);
                self.command(table, second);
            }
            Command::If {
                then, otherwise, ..
            } => {
                self.command(table, then);
                self.command(table, otherwise);
            }
            _ => {}
        }
        self.commands.push(number);
    }

    fn expression(&mut self, table: &Table, number: u16) {
        let expression = Expression::of(table.expressions[usize::from(number)]);
        if let Some(Expression::Operation(_, left, right)) = expression {
            self.expression(table, left);
            self.expression(table, right);
        }
        self.expressions.push(number);
    }

    /// How many commands and how many expressions have another number than before.
    pub fn moved(&self) -> [usize; 2] {
        [&self.commands, &self.expressions].map(|order| {
            let numbers = order.iter().enumerate();
            numbers
                .filter(|&(new, &old)| new != usize::from(old))
                .count()
        })
    }

    /// The same design with its nodes in this order, which has each of them once.
    pub fn apply(&self, table: &Table) -> Table {
        let [commands, expressions] =
            [&self.commands, &self.expressions].map(|order| inverse(order));
        let command = |number: u16| commands[usize::from(number)];
        let expression = |number: u16| expressions[usize::from(number)];
        let mut new = table.clone();
        for state in &mut new.states {
            state.command = command(state.command);
        }
        new.commands = moved(&self.commands, &table.commands, |node| match node.kind {
            1 => node.a = expression(node.a),
            2 => (node.a, node.b) = (command(node.a), command(node.b)),
            5 => (node.a, node.b, node.c) = (expression(node.a), command(node.b), command(node.c)),
            _ => {}
        });
        new.expressions = moved(&self.expressions, &table.expressions, |node| {
            if node.kind > 1 {
                (node.a, node.b) = (expression(node.a), expression(node.b));
            }
        });
        new
    }
}

/// The new number of each node.
fn inverse(order: &[u16]) -> Vec<u16> {
    let mut numbers = vec![0; order.len()];
    for (new, &old) in order.iter().enumerate() {
        numbers[usize::from(old)] = new as u16;
    }
    numbers
}

/// The nodes in an order, each with new numbers for its parts.
fn moved(order: &[u16], nodes: &[Node], parts: impl Fn(&mut Node)) -> Vec<Node> {
    let moved = order.iter().map(|&old| {
        let mut node = nodes[usize::from(old)];
        parts(&mut node);
        node
    });
    moved.collect()
}

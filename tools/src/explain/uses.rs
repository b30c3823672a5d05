//! What uses a node, for refusal 6: states, and nodes of which it is a part.

use crate::named::Named;
use crate::table::node::{Command, Expression};

pub fn of_command(table: &Named, number: u16) -> String {
    let mut users = Vec::new();
    for (state, record) in table.states.iter().enumerate() {
        let name = table.names.numbered_state(state);
        add(&mut users, &[record.command], number, "state", &name);
    }
    for (owner, node) in table.commands.iter().enumerate() {
        let parts = match Command::of(*node) {
            Some(Command::Sequence { first, second }) => vec![first, second],
            Some(Command::If {
                then, otherwise, ..
            }) => vec![then, otherwise],
            _ => Vec::new(),
        };
        add(&mut users, &parts, number, "command", &owner.to_string());
    }
    sentence(&users)
}

pub fn of_expression(table: &Named, number: u16) -> String {
    let mut users = Vec::new();
    for (owner, node) in table.commands.iter().enumerate() {
        let parts = match Command::of(*node) {
            Some(Command::Assign { value, .. }) => vec![value],
            Some(Command::If { condition, .. }) => vec![condition],
            _ => Vec::new(),
        };
        add(&mut users, &parts, number, "command", &owner.to_string());
    }
    for (owner, node) in table.expressions.iter().enumerate() {
        let parts = match Expression::of(*node) {
            Some(Expression::Operation(_, left, right)) => vec![left, right],
            _ => Vec::new(),
        };
        add(&mut users, &parts, number, "expression", &owner.to_string());
    }
    sentence(&users)
}

/// Names the user once for each part that is the node.
fn add(users: &mut Vec<String>, parts: &[u16], number: u16, what: &str, user: &str) {
    let uses = parts.iter().filter(|&&part| part == number);
    users.extend(uses.map(|_| format!("{what} {user}")));
}

fn sentence(users: &[String]) -> String {
    if users.is_empty() {
        return "Used by: nothing\n".to_string();
    }
    format!("Used by: {}\n", users.join(", "))
}

//! Why a shape is refused, at the command that is charged. It serves refusal 8, where the table has
//! kept rules 1 to 7.

use crate::named::Named;
use crate::print::records::state_name;
use crate::table::node::Command;

pub fn reasons(table: &Named, number: usize) -> String {
    let number = number as u16;
    let mut reasons = Vec::new();
    for state in 0..table.states.len() {
        let body = table.states[state].command;
        if body == number && !transfers(table, body) {
            reasons.push(format!(
                "state {} does not transfer: not every way through its body ends in a fall or goto",
                state_name(table, state as u8)
            ));
        }
        if holds(table, body, number) {
            reasons.extend(rule(table, state, number));
        }
    }
    reasons
        .into_iter()
        .map(|reason| format!("    {reason}\n"))
        .collect()
}

/// The rule of the command's own kind, if it breaks it in a state.
fn rule(table: &Named, state: usize, number: u16) -> Option<String> {
    let name = state_name(table, state as u8);
    match command(table, number)? {
        Command::Sequence { first, .. } if transfers(table, first) => {
            Some("the first part transfers, so the second would never run".to_string())
        }
        Command::If {
            then, otherwise, ..
        } if transfers(table, then) != transfers(table, otherwise) => {
            Some("one branch transfers, and the other does not".to_string())
        }
        Command::Fall if !has_child(table, state) => Some(format!("state {name} has no child")),
        Command::Goto { state: to, .. } => goto(table, state, usize::from(to)),
        _ => None,
    }
}

fn goto(table: &Named, from: usize, to: usize) -> Option<String> {
    let (this, that) = (state_name(table, from as u8), state_name(table, to as u8));
    if from == 0 {
        return Some(format!("{this} is the root, which has no sibling"));
    }
    if to == 0 {
        return Some(format!("{that} is the root, which is nobody's sibling"));
    }
    let parent = |state: usize| state_name(table, table.states[state].parent);
    (table.states[from].parent != table.states[to].parent).then(|| {
        format!(
            "{that} is no sibling of {this}: its parent is {}, and that of {this} is {}",
            parent(to),
            parent(from)
        )
    })
}

fn has_child(table: &Named, state: usize) -> bool {
    let mut others = table.states.iter().skip(1);
    others.any(|other| usize::from(other.parent) == state)
}

pub(crate) fn transfers(table: &Named, number: u16) -> bool {
    match command(table, number) {
        Some(Command::Fall | Command::Goto { .. }) => true,
        Some(Command::Sequence { second, .. }) => transfers(table, second),
        Some(Command::If {
            then, otherwise, ..
        }) => transfers(table, then) && transfers(table, otherwise),
        _ => false,
    }
}

/// Whether a command is another, or holds it.
pub(super) fn holds(table: &Named, outer: u16, inner: u16) -> bool {
    outer == inner
        || match command(table, outer) {
            Some(Command::Sequence { first, second }) => {
                holds(table, first, inner) || holds(table, second, inner)
            }
            Some(Command::If {
                then, otherwise, ..
            }) => holds(table, then, inner) || holds(table, otherwise, inner),
            _ => false,
        }
}

fn command(table: &Named, number: u16) -> Option<Command> {
    Command::of(table.commands[usize::from(number)])
}

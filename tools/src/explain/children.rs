//! Why a child is refused by 9: its parent holds a fall, it is the parent's default child, and the
//! parent's label does not flow to its own. It serves where the table has kept all rules before, so that
//! the child has no parameters of its own and the same are in scope of both.

use super::level::{fault, of_state};
use super::shape::holds;
use crate::named::Named;
use crate::table::node::Command;

pub fn reasons(table: &Named, child: usize) -> String {
    let parent = table.states[child].parent;
    let falls = falls(table, table.states[usize::from(parent)].command).join(", ");
    let scope = table.in_scope(child);
    let parent = of_state(table, parent, &scope);
    let child = of_state(table, child as u8, &scope);
    let choice = fault(table, &scope, parent.level, child.level).unwrap_or_default();
    let (parent, child) = (parent.show(), child.show());
    format!(
        "    {parent} holds a fall: {falls}\n\
         \x20   {child} is its default child, the lowest-numbered\n\
         \x20   {parent} does not flow to {child}{choice}\n"
    )
}

/// The falls in a body, in the order of their numbers.
fn falls(table: &Named, body: u16) -> Vec<String> {
    let commands = table.commands.iter().enumerate();
    commands
        .filter(|&(_, node)| Command::of(*node) == Some(Command::Fall))
        .filter(|&(number, _)| holds(table, body, number as u16))
        .map(|(number, _)| format!("command {number}"))
        .collect()
}

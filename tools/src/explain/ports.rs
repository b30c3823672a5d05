//! Why an assignment or a goto is refused by 16: a register that it names is a port.

use crate::named::Named;
use crate::print::records::{register_name, state_name};
use crate::table::node::Command;
use crate::table::PORT;

pub fn reasons(table: &Named, number: usize) -> String {
    match Command::of(table.commands[number]) {
        Some(Command::Assign { register, .. }) => {
            format!("    {} is a port\n", register_name(table, register))
        }
        Some(Command::Goto { state, arguments }) => {
            let used = usize::from(table.states[usize::from(state)].count);
            let state = state_name(table, state);
            (arguments.into_iter().take(used))
                .filter_map(|argument| port(table, argument))
                .map(|port| format!("    {port} is a port, and is given to {state}\n"))
                .collect()
        }
        _ => String::new(),
    }
}

fn port(table: &Named, argument: u16) -> Option<String> {
    let register = table.registers.get(usize::from(argument))?;
    (register.kind == PORT).then(|| register_name(table, argument as u8))
}

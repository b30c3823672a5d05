//! Why a flow is refused: which labels of the context, or of registers read, do not flow to the
//! label they must, and for which choice of a parameter's label. It serves refusals 10 to 12, where the
//! table has kept all rules before.

use super::level::{self, of_goto, of_operand, of_state, Labelled};
use crate::named::{Named, Parameter};
use crate::table::node::{Command, Expression};

pub fn reasons(table: &Named, number: usize) -> String {
    let Some(flow) = flow(table, number as u16) else {
        return String::new();
    };
    let mut text = String::new();
    for source in flow.sources {
        if let Some(choice) = level::fault(table, &flow.scope, source.level, flow.target.level) {
            let (source, target) = (source.show(), flow.target.show());
            let line = format!("    {source} does not flow to {target}{choice}\n");
            // A register may be read more than once.
            if !text.contains(&line) {
                text += &line;
            }
        }
    }
    text
}

/// What flows at a command, and to where.
struct Flow {
    /// The parameters in scope.
    scope: Vec<Parameter>,
    sources: Vec<Labelled>,
    target: Labelled,
}

fn flow(table: &Named, number: u16) -> Option<Flow> {
    for (state, record) in table.states.iter().enumerate() {
        let scope = table.in_scope(state);
        let mut sources = vec![of_state(table, state as u8, &scope)];
        if !context(table, record.command, number, &scope, &mut sources) {
            continue;
        }
        let target = match Command::of(table.commands[usize::from(number)])? {
            Command::Assign { register, value } => {
                reads(table, value, &scope, &mut sources);
                of_operand(table, register.into(), &scope)
            }
            Command::Goto { state, arguments } => of_goto(table, state, arguments, &scope),
            _ => of_state(table, state as u8, &scope),
        };
        return Some(Flow {
            scope,
            sources,
            target,
        });
    }
    None
}

/// Adds what the conditions on the way from one command to another read, if there is a way.
fn context(
    table: &Named,
    from: u16,
    to: u16,
    scope: &[Parameter],
    sources: &mut Vec<Labelled>,
) -> bool {
    if from == to {
        return true;
    }
    match Command::of(table.commands[usize::from(from)]) {
        Some(Command::Sequence { first, second }) => {
            context(table, first, to, scope, sources) || context(table, second, to, scope, sources)
        }
        Some(Command::If {
            condition,
            then,
            otherwise,
        }) => {
            let before = sources.len();
            reads(table, condition, scope, sources);
            let found = context(table, then, to, scope, sources)
                || context(table, otherwise, to, scope, sources);
            if !found {
                sources.truncate(before);
            }
            found
        }
        _ => false,
    }
}

fn reads(table: &Named, number: u16, scope: &[Parameter], sources: &mut Vec<Labelled>) {
    match Expression::of(table.expressions[usize::from(number)]) {
        Some(Expression::Register(byte)) => sources.push(of_operand(table, byte.into(), scope)),
        Some(Expression::Operation(_, left, right)) => {
            reads(table, left, scope, sources);
            reads(table, right, scope, sources);
        }
        _ => {}
    }
}

//! Why a parameter's count, bound, scope or argument is refused by 19. It serves where the table has kept
//! the rules up to 8 and 16. And which states have parameters, for 20.

use super::level::choice;
use super::place::{home_of_command, home_of_expression};
use crate::named::{Named, Parameter};
use crate::print::records::{bounds, label_name, register_name, state_head, state_name};
use crate::table::limits::PARAMETERS;
use crate::table::node::{Command, Expression};
use crate::table::{parameters, Bounds};

/// Whether the record of some state is at fault. Then the place is the lowest such state's, else a node's.
pub fn of_states(table: &Named) -> bool {
    (0..table.states.len()).any(|state| !state_reasons(table, state).is_empty())
}

pub fn of_state(table: &Named, state: usize) -> String {
    lines(state_reasons(table, state))
}

pub fn of_command(table: &Named, number: usize) -> String {
    let scope = scope(table, home_of_command(table, number));
    match Command::of(table.commands[number]) {
        Some(Command::Assign { register, .. }) => lines(out_of_scope(register.into(), &scope)),
        Some(Command::Goto { state, arguments }) => {
            lines(argument_reasons(table, state.into(), arguments, &scope))
        }
        _ => String::new(),
    }
}

pub fn of_expression(table: &Named, number: usize) -> String {
    let scope = scope(table, home_of_expression(table, number));
    match Expression::of(table.expressions[number]) {
        Some(Expression::Register(byte)) => lines(out_of_scope(byte.into(), &scope)),
        _ => String::new(),
    }
}

/// The states that have parameters, each with its declaration.
pub fn holders(table: &Named) -> String {
    let states = (0..table.states.len()).filter(|&state| table.states[state].count > 0);
    let heads = states.map(|state| format!("    {}\n", state_head(table, state)));
    format!("States with parameters:\n{}", heads.collect::<String>())
}

fn lines(reasons: Vec<String>) -> String {
    reasons
        .into_iter()
        .map(|reason| format!("    {reason}\n"))
        .collect()
}

fn scope(table: &Named, home: Option<usize>) -> Vec<Parameter> {
    home.map_or(Vec::new(), |state| table.in_scope(state))
}

/// Each rule that the record of a state breaks.
fn state_reasons(table: &Named, state: usize) -> Vec<String> {
    let record = &table.states[state];
    let count = usize::from(record.count);
    let name = state_name(table, state as u8);
    let mut reasons = Vec::new();
    if count > PARAMETERS {
        reasons.push(format!(
            "count {count}: a state has at most {PARAMETERS} parameters"
        ));
    }
    if count > 0 && state == 0 {
        reasons.push(format!("{name} is the root, which has no parameters"));
    }
    let parent = usize::from(record.parent);
    if count > 0 && state > 0 && table.default_child(parent) == Some(state) {
        let parent = state_name(table, record.parent);
        reasons.push(format!(
            "{name} is the default child of {parent}, and a default child has no parameters"
        ));
    }
    let inherited = table.inherited(state).len();
    if count > 0 && inherited > 0 && inherited + count > PARAMETERS {
        reasons.push(format!(
            "{} parameters are in scope, {inherited} of them of states above: {PARAMETERS} are the most",
            inherited + count
        ));
    }
    for (number, pair) in record.bounds.iter().enumerate() {
        reasons.extend(pair_reasons(table, state, number, *pair));
    }
    if let Some(number) = parameters::of_label(record.label) {
        if number >= table.scope(state).len() {
            let label = record.label;
            reasons.push(format!(
                "label {label} is that of parameter {number}, which is not in scope of {name}"
            ));
        }
    }
    reasons
}

fn pair_reasons(table: &Named, state: usize, number: usize, pair: Bounds) -> Vec<String> {
    let Some(name) = table.names.parameters(state).get(number) else {
        let Bounds { lower, upper } = pair;
        return match pair == Bounds::default() {
            true => Vec::new(),
            false => vec![format!(
                "bounds {lower} and {upper} of no parameter: what is not used is 0"
            )],
        };
    };
    let labels = table.rows.len();
    let none: Vec<String> = [pair.lower, pair.upper]
        .into_iter()
        .filter(|&bound| usize::from(bound) >= labels)
        .map(|bound| {
            let last = labels - 1;
            format!("bound {bound} of {name} is no label: the design has labels 0 to {last}")
        })
        .collect();
    if none.is_empty() && !table.flows(pair.lower, pair.upper) {
        let [lower, upper] = [pair.lower, pair.upper].map(|one| label_name(table, one.into()));
        return vec![format!(
            "{lower}, the lower bound of {name}, does not flow to {upper}, the upper one"
        )];
    }
    none
}

fn out_of_scope(byte: u16, scope: &[Parameter]) -> Vec<String> {
    match parameters::of_register(byte) {
        Some(number) if number >= scope.len() => vec![format!(
            "{byte} names parameter {number}, which is not in scope"
        )],
        _ => Vec::new(),
    }
}

fn argument_reasons(
    table: &Named,
    state: usize,
    arguments: [u16; PARAMETERS],
    scope: &[Parameter],
) -> Vec<String> {
    let record = &table.states[state];
    let name = state_name(table, state as u8);
    let parameters = table.names.parameters(state);
    let mut reasons = Vec::new();
    for (field, argument) in arguments.into_iter().enumerate() {
        if field < record.parameters().len() {
            let given = record.bounds[field];
            let to = format!("{} : {} of {name}", parameters[field], bounds(table, given));
            reasons.extend(one_argument(table, argument, given, &to, scope));
        } else if argument != 0 {
            let field = ["a", "b"][field];
            let count = match record.count {
                1 => "1 parameter".to_string(),
                count => format!("{count} parameters"),
            };
            reasons.push(format!(
                "field {field} is {argument} and not used, as {name} has {count}: it has to be 0"
            ));
        }
    }
    reasons
}

/// Why an argument cannot be given to a parameter, which stands in words.
fn one_argument(
    table: &Named,
    argument: u16,
    given: Bounds,
    to: &str,
    scope: &[Parameter],
) -> Vec<String> {
    let within = |label: u8| table.flows(given.lower, label) && table.flows(label, given.upper);
    if let Some(number) = parameters::of_register(argument) {
        let Some(Parameter {
            name,
            bounds: bounded,
        }) = scope.get(number)
        else {
            return out_of_scope(argument, scope);
        };
        // Within the bounds for every choice: both its own bounds are.
        let outside = [bounded.lower, bounded.upper]
            .into_iter()
            .find(|&label| !within(label));
        let shown = bounds(table, *bounded);
        let reason = outside.map(|label| {
            let choice = choice(table, scope, number, label);
            format!("{name} : {shown} does not lie within {to} where {choice}")
        });
        return reason.into_iter().collect();
    }
    match table.registers.get(usize::from(argument)) {
        None => vec![format!(
            "{argument}, given to {to}, is neither a register nor a parameter"
        )],
        Some(register) if !within(register.label) => {
            let name = register_name(table, argument as u8);
            let label = label_name(table, register.label.into());
            vec![format!("{name} : {label} does not lie within {to}")]
        }
        Some(_) => Vec::new(),
    }
}

//! What flows: a register, a parameter or a state with its label, which may be a parameter's and so is any
//! label within its bounds.

use crate::named::{Named, Parameter};
use crate::print::records::{bounds, label_name, operand_name, parameter_name, state_name};
use crate::table::parameters;

#[derive(Clone, Copy)]
pub enum Level {
    Label(u8),
    /// By its number in scope.
    Parameter(usize),
}

/// A register, parameter or state with its label.
pub struct Labelled {
    name: String,
    pub level: Level,
    /// Behind the name.
    label: String,
}

impl Labelled {
    pub fn show(&self) -> String {
        format!("{} : {}", self.name, self.label)
    }
}

/// What a byte names in the place of a register.
pub fn of_operand(table: &Named, byte: u16, scope: &[Parameter]) -> Labelled {
    let (level, label) = match parameters::of_register(byte) {
        Some(number) => (
            Level::Parameter(number),
            bounds(table, scope[number].bounds),
        ),
        None => {
            let label = table.registers[usize::from(byte)].label;
            (Level::Label(label), label_name(table, label.into()))
        }
    };
    Labelled {
        name: operand_name(table, byte, scope),
        level,
        label,
    }
}

pub fn of_state(table: &Named, state: u8, scope: &[Parameter]) -> Labelled {
    let label = table.states[usize::from(state)].label;
    let (level, label) = match parameters::of_label(label) {
        Some(number) => (Level::Parameter(number), parameter_name(scope, number)),
        None => (Level::Label(label), label_name(table, label.into())),
    };
    Labelled {
        name: state_name(table, state),
        level,
        label,
    }
}

/// The state that a goto names. Where its label is its own parameter's, it is that of the argument.
pub fn of_goto(table: &Named, state: u8, arguments: [u16; 2], scope: &[Parameter]) -> Labelled {
    let number = usize::from(state);
    let inherited = table.inherited(number).len();
    let own = parameters::of_label(table.states[number].label)
        .and_then(|parameter| parameter.checked_sub(inherited));
    let Some(own) = own else {
        return of_state(table, state, scope);
    };
    let argument = of_operand(table, arguments[own], scope);
    Labelled {
        name: state_name(table, state),
        level: argument.level,
        label: format!(
            "{} (of its argument {})",
            match argument.level {
                Level::Parameter(_) => argument.name.clone(),
                Level::Label(_) => argument.label.clone(),
            },
            argument.name
        ),
    }
}

/// None where the one flows to the other for every choice of labels within the bounds in scope. Else a
/// choice for which it does not, in words.
pub fn fault(table: &Named, scope: &[Parameter], from: Level, to: Level) -> Option<String> {
    let bound = |number: usize, label: u8| (label, Some((number, label)));
    let highest = |level: Level| match level {
        Level::Label(label) => (label, None),
        Level::Parameter(number) => bound(number, scope[number].bounds.upper),
    };
    let lowest = |level: Level| match level {
        Level::Label(label) => (label, None),
        Level::Parameter(number) => bound(number, scope[number].bounds.lower),
    };
    if let (Level::Parameter(one), Level::Parameter(other)) = (from, to) {
        if one == other {
            return None;
        }
    }
    let ((from, one), (to, other)) = (highest(from), lowest(to));
    if table.flows(from, to) {
        return None;
    }
    let chosen: Vec<String> = (one.into_iter().chain(other))
        .map(|(number, label)| choice(table, scope, number, label))
        .collect();
    match chosen.is_empty() {
        true => Some(String::new()),
        false => Some(format!(" where {}", chosen.join(" and "))),
    }
}

pub fn choice(table: &Named, scope: &[Parameter], number: usize, label: u8) -> String {
    let name = parameter_name(scope, number);
    format!("{name} is {}", label_name(table, label.into()))
}

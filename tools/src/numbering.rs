//! Names and nesting to numbers. Everything is numbered in the order of the text; a node comes
//! after its parts, as soon as they all have their numbers.

use crate::declared::{twice, Declared, Lookup};
use crate::positions::Positions;
use crate::table::limits::{PARAMETERS, PARAMETER_LABEL, PARAMETER_REGISTER};
use crate::table::node::{self, Node};
use crate::table::{self, Table, INNER, PORT};
use crate::text::fault::Fault;
use crate::text::faults::Faults;
use crate::text::tree::{Command, Design, Expression, Name, Placed, State};
use std::collections::HashSet;

/// The table, and where each of its records stands in the text.
pub fn number(design: &Design) -> Result<(Table, Positions), Faults> {
    let none = HashSet::new();
    let (table, positions, faults) = numbered(design, &none);
    Faults::or(faults, (table, positions))
}

/// What is wrong with the names of a design whose text has other faults. Names in what was skipped may be declared
/// there.
pub fn faults(design: &Design, skipped: &HashSet<String>) -> Vec<Fault> {
    numbered(design, skipped).2
}

fn numbered(design: &Design, skipped: &HashSet<String>) -> (Table, Positions, Vec<Fault>) {
    let labels = || design.labels.iter().map(|label| &label.name);
    let registers = || design.registers.iter().map(|register| &register.name);
    let states = || design.states.iter().map(|state| &state.name);
    let twice = [
        twice("label", labels()),
        twice("register", registers()),
        twice("state", states()),
    ];
    let mut numbering = Numbering {
        labels: Declared::new("label", labels()),
        registers: Declared::new("register", registers()),
        states: Declared::new("state", states()),
        own: design.states.iter().map(own).collect(),
        scope: Vec::new(),
        lookup: Lookup {
            faults: twice.concat(),
            skipped,
        },
        table: Table::default(),
        positions: Positions::of(design),
    };
    numbering.rows(design);
    numbering.registers(design);
    numbering.states(design);
    for body in &design.loose {
        numbering.scope = Vec::new();
        numbering.command(body);
    }
    (
        numbering.table,
        numbering.positions,
        numbering.lookup.faults,
    )
}

struct Numbering<'a> {
    labels: Declared<'a>,
    registers: Declared<'a>,
    states: Declared<'a>,
    /// How many parameters each state has.
    own: Vec<usize>,
    /// The parameters that the body now read may name.
    scope: Vec<&'a Name>,
    lookup: Lookup<'a>,
    table: Table,
    positions: Positions,
}

fn own(state: &State) -> usize {
    state.parameters.len()
}

impl<'a> Numbering<'a> {
    /// Each label flows to itself without being told so.
    fn rows(&mut self, design: &Design) {
        for (number, label) in design.labels.iter().enumerate() {
            let mut row = bit(number);
            for name in &label.flows_to {
                row |= bit(self.label(name).into());
            }
            self.table.rows.push(row);
        }
    }

    fn registers(&mut self, design: &Design) {
        for register in &design.registers {
            let label = self.label(&register.label);
            self.table.registers.push(table::Register {
                label,
                kind: if register.port { PORT } else { INNER },
                reset: register.reset,
                width: register.width,
            });
        }
    }

    fn states(&mut self, design: &'a Design) {
        let mut scopes: Vec<Vec<&Name>> = Vec::new();
        for state in &design.states {
            let parent = match &state.parent {
                Some(parent) => self.state(parent),
                None => 0,
            };
            // A parent that stands below its child is refused by 4, and its parameters are not known yet.
            let inherited = scopes.get(usize::from(parent)).cloned();
            self.scope = inherited.unwrap_or_default();
            let bounds = self.parameters(state);
            scopes.push(self.scope.clone());
            let label = self.state_label(&state.label);
            let command = self.command(&state.body);
            self.table.states.push(table::State {
                parent,
                label,
                command,
                count: own(state) as u8,
                bounds,
            });
        }
    }

    /// The bounds of a state's own parameters, which come into scope. A name must not hide another, be it
    /// that of a register, of a label or of a parameter of a state above.
    fn parameters(&mut self, state: &'a State) -> [table::Bounds; PARAMETERS] {
        let mut bounds = [table::Bounds::default(); PARAMETERS];
        for (parameter, bounds) in state.parameters.iter().zip(&mut bounds) {
            let name = &parameter.name;
            if self.registers.has(name) || self.labels.has(name) || self.in_scope(name).is_some() {
                let expected = "a name that no register, label or parameter in scope has";
                let fault = Fault::new(name.at, expected, format!("`{}`", name.text));
                self.lookup.faults.push(fault);
            }
            bounds.lower = self.label(&parameter.lower);
            bounds.upper = self.label(&parameter.upper);
            self.scope.push(name);
        }
        bounds
    }

    /// The number of a parameter in scope.
    fn in_scope(&self, name: &Name) -> Option<usize> {
        self.scope.iter().position(|one| one.text == name.text)
    }

    /// Two parameters have a byte that names them. More in scope are refused by 19, if nothing names them.
    fn parameter(&self, name: &Name, first: u8) -> Option<Result<usize, Fault>> {
        let number = self.in_scope(name)?;
        if number < PARAMETERS {
            return Some(Ok(usize::from(first) + number));
        }
        let expected = format!("one of the first {PARAMETERS} parameters in scope");
        Some(Err(Fault::new(
            name.at,
            expected,
            format!("`{}`", name.text),
        )))
    }

    // Numbers are cut to a byte below: where there are more than one has room for, the text has a fault.

    fn label(&mut self, name: &Name) -> u8 {
        let found = self.labels.find(name, &[&self.registers, &self.states]);
        self.lookup.take("label", name, found) as u8
    }

    fn state(&mut self, name: &Name) -> u8 {
        let found = self.states.find(name, &[&self.registers, &self.labels]);
        self.lookup.take("state", name, found) as u8
    }

    fn state_label(&mut self, name: &Name) -> u8 {
        match self.parameter(name, PARAMETER_LABEL) {
            Some(found) => self.lookup.take("label", name, found) as u8,
            None => self.label(name),
        }
    }

    fn register(&mut self, name: &Name) -> u8 {
        let found = self.parameter(name, PARAMETER_REGISTER);
        let others = [&self.states, &self.labels];
        let found = found.unwrap_or_else(|| self.registers.find(name, &others));
        self.lookup.take("register", name, found) as u8
    }

    /// A field that is left out would be the register 0, so the text has all of them.
    fn arguments(&mut self, state: &Name, names: &[Name]) -> [u16; PARAMETERS] {
        let number = self.states.find(state, &[]).ok();
        let own = number.map(|number| self.own[number]);
        let within = names.len() <= PARAMETERS;
        if let Some(own) = own.filter(|own| within && *own != names.len()) {
            let expected = match own {
                1 => "1 argument".to_string(),
                own => format!("{own} arguments"),
            };
            let expected = format!("{expected} behind `{}`", state.text);
            let fault = Fault::new(state.at, expected, names.len().to_string());
            self.lookup.faults.push(fault);
        }
        let mut arguments = [0; PARAMETERS];
        for (place, name) in names.iter().enumerate() {
            let register = u16::from(self.register(name));
            if let Some(argument) = arguments.get_mut(place) {
                *argument = register;
            }
        }
        arguments
    }

    fn command(&mut self, command: &Placed<Command>) -> u16 {
        let node = match &command.node {
            Command::Skip => node::Command::Skip,
            Command::Assign(register, value) => node::Command::Assign {
                register: self.register(register),
                value: self.expression(value),
            },
            Command::Sequence(first, second) => node::Command::Sequence {
                first: self.command(first),
                second: self.command(second),
            },
            Command::Fall => node::Command::Fall,
            Command::Goto(state, arguments) => node::Command::Goto {
                state: self.state(state),
                arguments: self.arguments(state, arguments),
            },
            Command::If(condition, then, otherwise) => node::Command::If {
                condition: self.expression(condition),
                then: self.command(then),
                otherwise: self.command(otherwise),
            },
        };
        self.positions.commands.push(command.at);
        add(&mut self.table.commands, node.node())
    }

    fn expression(&mut self, expression: &Placed<Expression>) -> u16 {
        let node = match &expression.node {
            Expression::Constant(value) => node::Expression::Constant(*value),
            Expression::Register(name) => node::Expression::Register(self.register(name)),
            Expression::Operation(operator, left, right) => {
                let left = self.expression(left);
                let right = self.expression(right);
                node::Expression::Operation(*operator, left, right)
            }
        };
        self.positions.expressions.push(expression.at);
        add(&mut self.table.expressions, node.node())
    }
}

/// Of a label. One too many has none, and is a fault of the text.
fn bit(label: usize) -> u16 {
    1u16.checked_shl(label as u32).unwrap_or(0)
}

/// The parser has kept the counts far below the range of a number.
fn add(nodes: &mut Vec<Node>, node: Node) -> u16 {
    nodes.push(node);
    (nodes.len() - 1) as u16
}

//! The rules of refusal 19, found by the bounds of the parameters and without choices.

use crate::reference::image::{Bounds, ASSIGN, FALL, GOTO, READ};
use crate::reference::limits::{
    EXPRESSION_PLACE, MOST_PARAMETERS, PARAMETER_LABEL, PARAMETER_REGISTER,
};
use crate::reference::scopes::parameter;
use crate::table::{Family, Node, Table};

/// A fault of 19: its place, and the rule that it breaks.
pub type Fault = (usize, &'static str);

/// The rules of 19, by what breaks them.
pub const RULES: [&str; 29] = [
    "19 by a count of 3",
    "19 by a count above 3",
    "19 by a parameter of the root",
    "19 by a parameter of a default child",
    "19 by a parameter of a default child, no fall",
    "19 by three in scope, the last its own",
    "19 by three in scope, two its own",
    "19 by a lower bound that is no label",
    "19 by an upper bound that is no label",
    "19 by a lower bound above its upper",
    "19 by a lower bound beside its upper",
    "19 by an unused first pair",
    "19 by an unused second pair",
    "19 by label byte 16 of the root",
    "19 by label byte 16, none in scope",
    "19 by label byte 17, none in scope",
    "19 by label byte 17, one in scope",
    "19 by an assignment to 64",
    "19 by an assignment to 65",
    "19 by a read of 64",
    "19 by a read of 65",
    "19 by an argument that is no register",
    "19 by an argument above 255",
    "19 by a register not at or above its lower bound",
    "19 by a register not at or below its upper bound",
    "19 by a parameter passed, not in scope",
    "19 by a parameter passed, within for some choice",
    "19 by an unused first field",
    "19 by an unused second field",
];

/// The lowest state, else the lowest node, commands before expressions.
pub fn first_fault(table: &Table) -> Option<Fault> {
    state_fault(table).or_else(|| {
        let nodes = NodeRules::of(table);
        nodes.command_fault().or_else(|| nodes.expression_fault())
    })
}

pub fn state_fault(table: &Table) -> Option<Fault> {
    (0..table.states.len()).find_map(|state| Some((state, state_rule(table, state)?)))
}

fn state_rule(table: &Table, number: usize) -> Option<&'static str> {
    let state = &table.states[number];
    let own = state.pairs();
    let outer = table.first_own(number);
    let label = parameter(state.label, PARAMETER_LABEL);
    let default = number != 0 && table.children(state.parent.into())[0] == number as u8;
    let is_label = |label: u8| usize::from(label) < table.rows.len();
    let unordered = own.iter().find(|pair| !table.flows(pair.lower, pair.upper));
    Some(match state.count {
        3 => "19 by a count of 3",
        4.. => "19 by a count above 3",
        1.. if number == 0 => "19 by a parameter of the root",
        1.. if default && holds_fall(table, state.parent.into()) => {
            "19 by a parameter of a default child"
        }
        1.. if default => "19 by a parameter of a default child, no fall",
        _ if outer + own.len() > MOST_PARAMETERS => match own.len() {
            1 => "19 by three in scope, the last its own",
            _ => "19 by three in scope, two its own",
        },
        _ if own.iter().any(|pair| !is_label(pair.lower)) => "19 by a lower bound that is no label",
        _ if own.iter().any(|pair| !is_label(pair.upper)) => {
            "19 by an upper bound that is no label"
        }
        _ if unordered.is_some_and(|pair| table.flows(pair.upper, pair.lower)) => {
            "19 by a lower bound above its upper"
        }
        _ if unordered.is_some() => "19 by a lower bound beside its upper",
        0 if state.bounds[0] != Bounds::default() => "19 by an unused first pair",
        0 | 1 if state.bounds[1] != Bounds::default() => "19 by an unused second pair",
        _ => match (label?, outer + own.len()) {
            (0, 0) if number == 0 => "19 by label byte 16 of the root",
            (0, 0) => "19 by label byte 16, none in scope",
            (1, 0) => "19 by label byte 17, none in scope",
            (1, 1) => "19 by label byte 17, one in scope",
            _ => return None,
        },
    })
}

/// A fall anywhere in the state's body.
pub fn holds_fall(table: &Table, state: usize) -> bool {
    let mut left = vec![table.states[state].command];
    while let Some(command) = left.pop() {
        let mut node = table.commands[usize::from(command)];
        if node.kind == FALL {
            return true;
        }
        left.extend(
            node.own_parts(Family::Command)
                .into_iter()
                .map(|part| *part),
        );
    }
    false
}

/// The nodes with the scopes of the states that hold them.
pub struct NodeRules<'a> {
    pub table: &'a Table,
    /// The state that holds each command, and each expression.
    pub commands: Vec<usize>,
    expressions: Vec<usize>,
    pub scopes: Vec<Vec<Bounds>>,
}

impl<'a> NodeRules<'a> {
    /// Expects nodes that are used exactly once.
    pub fn of(table: &'a Table) -> NodeRules<'a> {
        let mut commands = vec![0; table.commands.len()];
        let mut expressions = vec![0; table.expressions.len()];
        for (state, record) in table.states.iter().enumerate() {
            commands[usize::from(record.command)] = state;
        }
        for (number, mut node) in table.commands.iter().copied().enumerate().rev() {
            let state = commands[number];
            for part in node.own_parts(Family::Command) {
                commands[usize::from(*part)] = state;
            }
            if let Some(part) = node.expression() {
                expressions[usize::from(*part)] = state;
            }
        }
        for (number, mut node) in table.expressions.iter().copied().enumerate().rev() {
            for part in node.own_parts(Family::Expression) {
                expressions[usize::from(*part)] = expressions[number];
            }
        }
        NodeRules {
            table,
            commands,
            expressions,
            scopes: (0..table.states.len())
                .map(|state| table.scope(state))
                .collect(),
        }
    }

    pub fn command_fault(&self) -> Option<Fault> {
        let commands = self.table.commands.iter().zip(&self.commands).enumerate();
        let mut commands = commands.map(|(number, (node, &state))| {
            let scope = &self.scopes[state];
            let rule = match node.kind {
                ASSIGN => out_of_scope(node.which, scope, ASSIGNMENTS),
                GOTO => self.argument_rule(node, scope),
                _ => None,
            };
            Some((number, rule?))
        });
        commands.find_map(|fault| fault)
    }

    pub fn expression_fault(&self) -> Option<Fault> {
        let expressions = self.table.expressions.iter().zip(&self.expressions);
        let mut reads = expressions.enumerate();
        reads.find_map(|(number, (node, &state))| {
            let scope = &self.scopes[state];
            let rule = match node.kind {
                READ => out_of_scope(node.which, scope, READS),
                _ => None,
            };
            Some((EXPRESSION_PLACE + number, rule?))
        })
    }

    fn argument_rule(&self, node: &Node, scope: &[Bounds]) -> Option<&'static str> {
        let named = &self.table.states[usize::from(node.which)];
        let fields = [node.a, node.b];
        let (used, unused) = fields.split_at(named.pairs().len());
        let mut arguments = used.iter().zip(named.pairs());
        let wrong = arguments.find_map(|(&field, &bounds)| self.argument(field, bounds, scope));
        let first = unused.len() == 2 && unused[0] != 0;
        wrong.or(match unused.last() {
            _ if first => Some("19 by an unused first field"),
            Some(1..) => Some("19 by an unused second field"),
            _ => None,
        })
    }

    fn argument(&self, field: u16, bounds: Bounds, scope: &[Bounds]) -> Option<&'static str> {
        let table = self.table;
        let Ok(byte) = u8::try_from(field) else {
            return Some("19 by an argument above 255");
        };
        if let Some(number) = parameter(byte, PARAMETER_REGISTER) {
            if number >= scope.len() {
                return Some("19 by a parameter passed, not in scope");
            }
            let within = table.always_within(scope, byte, bounds);
            return (!within).then_some("19 by a parameter passed, within for some choice");
        }
        let Some(register) = table.registers.get(usize::from(byte)) else {
            return Some("19 by an argument that is no register");
        };
        if !table.flows(bounds.lower, register.label) {
            return Some("19 by a register not at or above its lower bound");
        }
        let within = table.flows(register.label, bounds.upper);
        (!within).then_some("19 by a register not at or below its upper bound")
    }
}

impl NodeRules<'_> {
    /// The label byte that a goto flows to.
    pub fn named(&self, node: &Node) -> u8 {
        let arguments = [node.a, node.b].map(|field| field as u8);
        self.table.named_label(node.which, &arguments)
    }

    /// The bounds of the parameter whose label the named state has, if it is its own.
    pub fn own_label(&self, node: &Node) -> Option<Bounds> {
        let named = usize::from(node.which);
        let number = parameter(self.table.states[named].label, PARAMETER_LABEL)?;
        let own = number.checked_sub(self.table.first_own(named))?;
        self.table.states[named].pairs().get(own).copied()
    }
}

const ASSIGNMENTS: [&str; 2] = ["19 by an assignment to 64", "19 by an assignment to 65"];

const READS: [&str; 2] = ["19 by a read of 64", "19 by a read of 65"];

fn out_of_scope(byte: u8, scope: &[Bounds], rules: [&'static str; 2]) -> Option<&'static str> {
    let number = parameter(byte, PARAMETER_REGISTER)?;
    (number >= scope.len()).then_some(rules[number])
}

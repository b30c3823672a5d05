//! Nodes as text. Each node is shown once, where it is first met: a table may use one node many
//! times, or as a part of itself.

use super::records::{operand_name, state_name};
use crate::named::{Named, Parameter};
use crate::operator::TIGHTEST;
use crate::table::limits::PARAMETERS;
use crate::table::node::{Command, Expression};
use crate::table::{Bounds, Node};

/// A command ready for layout: what may be broken into lines, and leaves of text.
#[derive(Clone, PartialEq, Eq)]
pub enum Body {
    Leaf(String),
    Sequence(Box<Body>, Box<Body>),
    If(String, Box<Body>, Box<Body>),
}

/// An expression, and how tightly its outer operator binds.
pub struct Written {
    pub text: String,
    binding: u8,
}

pub struct Reader<'a> {
    table: Named<'a>,
    commands: Vec<bool>,
    expressions: Vec<bool>,
    in_scope: Vec<Parameter>,
}

impl<'a> Reader<'a> {
    pub fn new(table: &Named<'a>) -> Reader<'a> {
        Reader {
            table: *table,
            commands: vec![false; table.commands.len()],
            expressions: vec![false; table.expressions.len()],
            in_scope: of_no_state(),
        }
    }

    /// What is read next is of the body of this state.
    pub fn enter(&mut self, state: usize) {
        self.in_scope = self.table.in_scope(state);
    }

    /// What is read next is of no state's body.
    pub fn leave(&mut self) {
        self.in_scope = of_no_state();
    }

    /// Whether the node was shown.
    pub fn has_command(&self, number: u16) -> bool {
        self.commands.get(usize::from(number)) == Some(&true)
    }

    pub fn has_expression(&self, number: u16) -> bool {
        self.expressions.get(usize::from(number)) == Some(&true)
    }

    pub fn command(&mut self, number: u16) -> Body {
        let node = match self.table.commands.get(usize::from(number)) {
            None => return Body::Leaf(format!("[command {number}]")),
            Some(_) if self.has_command(number) => {
                return Body::Leaf(format!("[command {number} again]"))
            }
            Some(node) => *node,
        };
        self.commands[usize::from(number)] = true;
        match Command::of(node) {
            None => Body::Leaf(raw("command", number, node)),
            Some(Command::Skip) => Body::Leaf("skip".to_string()),
            Some(Command::Fall) => Body::Leaf("fall".to_string()),
            Some(Command::Goto { state, arguments }) => {
                let arguments = self.arguments(state, arguments);
                Body::Leaf(format!(
                    "goto {}{arguments}",
                    state_name(&self.table, state)
                ))
            }
            Some(Command::Assign { register, value }) => {
                let register = operand_name(&self.table, register.into(), &self.in_scope);
                let value = self.expression(value).text;
                Body::Leaf(format!("{register} := {value}"))
            }
            Some(Command::Sequence { first, second }) => {
                let first = self.command(first);
                let second = self.command(second);
                Body::Sequence(Box::new(first), Box::new(second))
            }
            Some(Command::If {
                condition,
                then,
                otherwise,
            }) => {
                let condition = self.expression(condition).text;
                let then = self.command(then);
                let otherwise = self.command(otherwise);
                Body::If(condition, Box::new(then), Box::new(otherwise))
            }
        }
    }

    /// In parentheses, or nothing. A field that the state has no parameter for has no form in the text.
    fn arguments(&self, state: u8, arguments: [u16; PARAMETERS]) -> String {
        let state = self.table.states.get(usize::from(state));
        let used = state.map_or(0, |state| usize::from(state.count));
        let shown: Vec<String> = (arguments.into_iter().enumerate())
            .filter(|&(field, argument)| field < used || argument != 0)
            .map(|(field, argument)| match field < used {
                true => operand_name(&self.table, argument, &self.in_scope),
                false => format!("[argument {argument}]"),
            })
            .collect();
        match shown.is_empty() {
            true => String::new(),
            false => format!("({})", shown.join(", ")),
        }
    }

    pub fn expression(&mut self, number: u16) -> Written {
        self.part(number, false)
    }

    /// A constant is shown with a sign where it is read as signed.
    fn part(&mut self, number: u16, signed: bool) -> Written {
        let node = match self.table.expressions.get(usize::from(number)) {
            None => return Written::tight(format!("[expression {number}]")),
            Some(_) if self.has_expression(number) => {
                return Written::tight(format!("[expression {number} again]"))
            }
            Some(node) => *node,
        };
        self.expressions[usize::from(number)] = true;
        match Expression::of(node) {
            None => Written::tight(raw("expression", number, node)),
            Some(Expression::Constant(value)) if signed => {
                Written::tight((value as i32).to_string())
            }
            Some(Expression::Constant(value)) => Written::tight(value.to_string()),
            Some(Expression::Register(register)) => {
                Written::tight(operand_name(&self.table, register.into(), &self.in_scope))
            }
            Some(Expression::Operation(operator, left, right)) => {
                let signed = operator.signed_parts();
                let left = self.part(left, signed.0).within(operator.left_binding());
                let right = self.part(right, signed.1).within(operator.right_binding());
                Written {
                    text: format!("{left} {} {right}", operator.symbol()),
                    binding: operator.binding(),
                }
            }
        }
    }
}

/// By their numbers alone.
fn of_no_state() -> Vec<Parameter> {
    let parameter = |number| Parameter {
        name: format!("p{number}"),
        bounds: Bounds::default(),
    };
    (0..PARAMETERS).map(parameter).collect()
}

impl Written {
    fn tight(text: String) -> Written {
        Written {
            text,
            binding: TIGHTEST,
        }
    }

    /// In parentheses where it must bind more tightly than it does.
    fn within(self, least: u8) -> String {
        if self.binding < least {
            format!("({})", self.text)
        } else {
            self.text
        }
    }
}

/// A node that says nothing: its kind is none, or a byte that must be 0 is not.
fn raw(family: &str, number: u16, node: Node) -> String {
    format!("[{family} {number}: bytes {}]", bytes(node))
}

pub fn bytes(node: Node) -> String {
    node.bytes().map(|byte| byte.to_string()).join(" ")
}

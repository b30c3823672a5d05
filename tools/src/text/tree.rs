//! A design as the text has it: nested, and by names.

use super::fault::Position;
use crate::operator::Operator;

#[derive(Clone, Debug)]
pub struct Name {
    pub text: String,
    pub at: Position,
}

/// A command or an expression, and where it begins. A sequence and an operation begin where their
/// first part does.
#[derive(Debug)]
pub struct Placed<T> {
    pub at: Position,
    pub node: T,
}

#[derive(Debug)]
pub struct Design {
    pub labels: Vec<Label>,
    pub registers: Vec<Register>,
    pub states: Vec<State>,
    /// Bodies of states whose heads are wrong, so that there are none where the text is right.
    pub loose: Vec<Placed<Command>>,
}

#[derive(Debug)]
pub struct Label {
    pub name: Name,
    /// The others that it flows to.
    pub flows_to: Vec<Name>,
}

#[derive(Debug)]
pub struct Register {
    pub name: Name,
    pub port: bool,
    pub label: Name,
    /// From 1 to 32.
    pub width: u8,
    pub reset: u32,
}

#[derive(Debug)]
pub struct State {
    pub name: Name,
    /// Its own ones.
    pub parameters: Vec<Parameter>,
    /// None for the root only.
    pub parent: Option<Name>,
    /// A label, or a parameter in scope.
    pub label: Name,
    pub body: Placed<Command>,
}

/// A parameter, and the labels between which its label lies.
#[derive(Debug)]
pub struct Parameter {
    pub name: Name,
    pub lower: Name,
    pub upper: Name,
}

#[derive(Debug)]
pub enum Command {
    Skip,
    Assign(Name, Placed<Expression>),
    Sequence(Box<Placed<Command>>, Box<Placed<Command>>),
    Fall,
    /// The state, and the registers or parameters that are given to its parameters.
    Goto(Name, Vec<Name>),
    If(
        Placed<Expression>,
        Box<Placed<Command>>,
        Box<Placed<Command>>,
    ),
}

#[derive(Debug)]
pub enum Expression {
    Constant(u32),
    Register(Name),
    Operation(Operator, Box<Placed<Expression>>, Box<Placed<Expression>>),
}

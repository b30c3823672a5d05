//! The nodes: eight bytes, and what they say when their kind and unused bytes are sound.

use crate::operator::Operator;

#[derive(Clone, Copy, Debug, Default, PartialEq, Eq)]
pub struct Node {
    pub kind: u8,
    pub which: u8,
    pub a: u16,
    pub b: u16,
    pub c: u16,
}

/// A command by the numbers of its parts.
#[derive(Clone, Copy, Debug, PartialEq, Eq)]
pub enum Command {
    Skip,
    Assign {
        register: u8,
        value: u16,
    },
    Sequence {
        first: u16,
        second: u16,
    },
    Fall,
    /// As many of the arguments are used as the state has parameters.
    Goto {
        state: u8,
        arguments: [u16; 2],
    },
    If {
        condition: u16,
        then: u16,
        otherwise: u16,
    },
}

/// An expression by the numbers of its parts.
#[derive(Clone, Copy, Debug, PartialEq, Eq)]
pub enum Expression {
    Constant(u32),
    Register(u8),
    Operation(Operator, u16, u16),
}

impl Command {
    pub fn node(self) -> Node {
        let (kind, which, a, b, c) = match self {
            Command::Skip => (0, 0, 0, 0, 0),
            Command::Assign { register, value } => (1, register, value, 0, 0),
            Command::Sequence { first, second } => (2, 0, first, second, 0),
            Command::Fall => (3, 0, 0, 0, 0),
            Command::Goto {
                state,
                arguments: [first, second],
            } => (4, state, first, second, 0),
            Command::If {
                condition,
                then,
                otherwise,
            } => (5, 0, condition, then, otherwise),
        };
        Node {
            kind,
            which,
            a,
            b,
            c,
        }
    }

    /// None if the kind is none or a byte that it does not use is not 0.
    pub fn of(node: Node) -> Option<Command> {
        let command = match node.kind {
            0 => Command::Skip,
            1 => Command::Assign {
                register: node.which,
                value: node.a,
            },
            2 => Command::Sequence {
                first: node.a,
                second: node.b,
            },
            3 => Command::Fall,
            4 => Command::Goto {
                state: node.which,
                arguments: [node.a, node.b],
            },
            5 => Command::If {
                condition: node.a,
                then: node.b,
                otherwise: node.c,
            },
            _ => return None,
        };
        (command.node() == node).then_some(command)
    }
}

impl Expression {
    pub fn node(self) -> Node {
        let (kind, which, a, b, c) = match self {
            Expression::Constant(value) => (0, 0, 0, value as u16, (value >> 16) as u16),
            Expression::Register(register) => (1, register, 0, 0, 0),
            Expression::Operation(operator, left, right) => (operator.kind(), 0, left, right, 0),
        };
        Node {
            kind,
            which,
            a,
            b,
            c,
        }
    }

    /// None if the kind is none or a byte that it does not use is not 0.
    pub fn of(node: Node) -> Option<Expression> {
        let expression = match node.kind {
            0 => Expression::Constant(u32::from(node.b) | u32::from(node.c) << 16),
            1 => Expression::Register(node.which),
            kind => Expression::Operation(Operator::of_kind(kind)?, node.a, node.b),
        };
        (expression.node() == node).then_some(expression)
    }
}

impl Node {
    pub fn bytes(self) -> [u8; 8] {
        let [a0, a1] = self.a.to_le_bytes();
        let [b0, b1] = self.b.to_le_bytes();
        let [c0, c1] = self.c.to_le_bytes();
        [self.kind, self.which, a0, a1, b0, b1, c0, c1]
    }
}

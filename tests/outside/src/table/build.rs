//! Adding records one by one; each call gives the new record's number.

use super::{Node, Register, State, Table};
use crate::reference::image::{Bounds, INNER, PORT};

impl Table {
    pub fn new(rows: &[u16]) -> Table {
        Table {
            rows: rows.to_vec(),
            ..Table::default()
        }
    }

    pub fn inner(&mut self, label: u8, reset: u32, width: u8) -> u8 {
        self.register(label, INNER, reset, width)
    }

    pub fn port(&mut self, label: u8, reset: u32, width: u8) -> u8 {
        self.register(label, PORT, reset, width)
    }

    pub fn register(&mut self, label: u8, kind: u8, reset: u32, width: u8) -> u8 {
        self.registers.push(Register {
            label,
            kind,
            reset,
            width,
        });
        (self.registers.len() - 1) as u8
    }

    pub fn state(&mut self, parent: u8, label: u8, command: u16) -> u8 {
        self.states.push(State {
            parent,
            label,
            command,
            ..State::default()
        });
        (self.states.len() - 1) as u8
    }

    /// Gives a state its parameters: for each the lower and the upper label.
    pub fn takes(&mut self, state: u8, bounds: &[(u8, u8)]) {
        let state = &mut self.states[usize::from(state)];
        state.count = bounds.len() as u8;
        for (pair, &(lower, upper)) in state.bounds.iter_mut().zip(bounds) {
            *pair = Bounds { lower, upper };
        }
    }

    pub fn command(&mut self, kind: u8, which: u8, a: u16, b: u16, c: u16) -> u16 {
        self.commands.push(Node {
            kind,
            which,
            a,
            b,
            c,
        });
        (self.commands.len() - 1) as u16
    }

    pub fn skip(&mut self) -> u16 {
        self.command(0, 0, 0, 0, 0)
    }

    pub fn assign(&mut self, register: u8, value: u16) -> u16 {
        self.command(1, register, value, 0, 0)
    }

    pub fn sequence(&mut self, first: u16, second: u16) -> u16 {
        self.command(2, 0, first, second, 0)
    }

    pub fn fall(&mut self) -> u16 {
        self.command(3, 0, 0, 0, 0)
    }

    pub fn goto(&mut self, state: u8) -> u16 {
        self.command(4, state, 0, 0, 0)
    }

    /// With arguments: registers, or 64 and 65.
    pub fn goto_with(&mut self, state: u8, arguments: &[u8]) -> u16 {
        let field = |number: usize| arguments.get(number).copied().unwrap_or(0).into();
        self.command(4, state, field(0), field(1), 0)
    }

    pub fn branch(&mut self, condition: u16, then: u16, otherwise: u16) -> u16 {
        self.command(5, 0, condition, then, otherwise)
    }

    pub fn expression(&mut self, kind: u8, which: u8, a: u16, b: u16, c: u16) -> u16 {
        self.expressions.push(Node {
            kind,
            which,
            a,
            b,
            c,
        });
        (self.expressions.len() - 1) as u16
    }

    pub fn constant(&mut self, value: u32) -> u16 {
        let Node { b, c, .. } = Node::constant(value);
        self.expression(0, 0, 0, b, c)
    }

    pub fn read(&mut self, register: u8) -> u16 {
        self.expression(1, register, 0, 0, 0)
    }

    pub fn operation(&mut self, kind: u8, left: u16, right: u16) -> u16 {
        self.expression(kind, 0, left, right, 0)
    }

    pub fn add(&mut self, left: u16, right: u16) -> u16 {
        self.operation(2, left, right)
    }

    pub fn subtract(&mut self, left: u16, right: u16) -> u16 {
        self.operation(3, left, right)
    }

    pub fn equal(&mut self, left: u16, right: u16) -> u16 {
        self.operation(7, left, right)
    }

    pub fn signed_less(&mut self, left: u16, right: u16) -> u16 {
        self.operation(9, left, right)
    }

    pub fn shift(&mut self, value: u16, count: u16) -> u16 {
        self.operation(10, value, count)
    }

    pub fn divide(&mut self, left: u16, right: u16) -> u16 {
        self.operation(11, left, right)
    }
}

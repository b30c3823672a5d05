//! A design as editable records. It may keep the rules or break any of them: it only knows
//! how to be written as an image.

mod bodies;
mod build;
pub mod gates;
mod parameters;
mod renumber;

use crate::reference::image::{self, Bounds, Image, LAST_OPERATION};
use crate::reference::limits::{
    DIRECTORY_BYTES, MOST_PARAMETERS, NODE_BYTES, REGISTER_BYTES, ROW_BYTES, STATE_BYTES,
    TARGET_BYTES, WIDEST,
};

#[derive(Clone, Debug, Default, PartialEq, Eq)]
pub struct Table {
    pub rows: Vec<u16>,
    pub registers: Vec<Register>,
    pub states: Vec<State>,
    pub commands: Vec<Node>,
    pub expressions: Vec<Node>,
}

#[derive(Clone, Copy, Debug, Default, PartialEq, Eq)]
pub struct Register {
    pub label: u8,
    pub kind: u8,
    pub reset: u32,
    pub width: u8,
}

impl Register {
    /// The largest value that the register holds. Expects a width in its range.
    pub fn most(&self) -> u32 {
        most(self.width)
    }
}

/// The largest value of so many bits, 1 to 32.
pub fn most(width: u8) -> u32 {
    u32::MAX >> (WIDEST - width)
}

#[derive(Clone, Copy, Debug, Default, PartialEq, Eq)]
pub struct State {
    pub parent: u8,
    pub label: u8,
    pub command: u16,
    /// The parameters: how many, and lower and upper label of each.
    pub count: u8,
    pub bounds: [Bounds; MOST_PARAMETERS],
}

impl State {
    /// The bounds of its own parameters.
    pub fn pairs(&self) -> &[Bounds] {
        &self.bounds[..usize::from(self.count).min(MOST_PARAMETERS)]
    }
}

#[derive(Clone, Copy, Debug, Default, PartialEq, Eq)]
pub struct Node {
    pub kind: u8,
    pub which: u8,
    pub a: u16,
    pub b: u16,
    pub c: u16,
}

/// The two families of nodes.
#[derive(Clone, Copy, Debug, PartialEq, Eq)]
pub enum Family {
    Command,
    Expression,
}

impl Node {
    pub fn constant(value: u32) -> Node {
        Node {
            b: value as u16,
            c: (value >> 16) as u16,
            ..Node::default()
        }
    }

    pub fn bytes(&self) -> [u8; 8] {
        let [a0, a1] = self.a.to_le_bytes();
        let [b0, b1] = self.b.to_le_bytes();
        let [c0, c1] = self.c.to_le_bytes();
        [self.kind, self.which, a0, a1, b0, b1, c0, c1]
    }

    pub fn from_bytes(bytes: [u8; 8]) -> Node {
        let [kind, which, a0, a1, b0, b1, c0, c1] = bytes;
        Node {
            kind,
            which,
            a: u16::from_le_bytes([a0, a1]),
            b: u16::from_le_bytes([b0, b1]),
            c: u16::from_le_bytes([c0, c1]),
        }
    }

    /// The fields that name parts of the node's own family.
    pub fn own_parts(&mut self, family: Family) -> Vec<&mut u16> {
        match (family, self.kind) {
            (Family::Command, 2) | (Family::Expression, 2..=LAST_OPERATION) => {
                vec![&mut self.a, &mut self.b]
            }
            (Family::Command, 5) => vec![&mut self.b, &mut self.c],
            _ => Vec::new(),
        }
    }

    /// The field that names an expression of a command.
    pub fn expression(&mut self) -> Option<&mut u16> {
        matches!(self.kind, 1 | 5).then_some(&mut self.a)
    }
}

impl Table {
    pub fn image(&self) -> Vec<u8> {
        let lengths = [
            ROW_BYTES * self.rows.len(),
            REGISTER_BYTES * self.registers.len(),
            STATE_BYTES * self.states.len(),
            NODE_BYTES * self.commands.len(),
            NODE_BYTES * self.expressions.len(),
        ];
        let mut image = Vec::with_capacity(DIRECTORY_BYTES + lengths.iter().sum::<usize>());
        let mut offset = DIRECTORY_BYTES;
        for length in lengths {
            image.extend((offset as u16).to_le_bytes());
            image.extend((length as u16).to_le_bytes());
            offset += length;
        }
        for row in &self.rows {
            image.extend(row.to_le_bytes());
        }
        for register in &self.registers {
            image.extend([register.label, register.kind]);
            image.extend(register.reset.to_le_bytes());
            image.push(register.width);
        }
        for state in &self.states {
            image.extend([state.parent, state.label]);
            image.extend(state.command.to_le_bytes());
            image.push(state.count);
            for Bounds { lower, upper } in state.bounds {
                image.extend([lower, upper]);
            }
        }
        for node in self.commands.iter().chain(&self.expressions) {
            image.extend(node.bytes());
        }
        image
    }

    /// The records of an image, if its directory holds.
    pub fn open(bytes: &[u8]) -> Option<Table> {
        let image = Image::open(bytes).ok()?;
        let node = |node: image::Node| Node {
            kind: node.kind,
            which: node.which,
            a: node.a,
            b: node.b,
            c: node.c,
        };
        Some(Table {
            rows: image.rows().collect(),
            registers: (image.registers())
                .map(|register| Register {
                    label: register.label,
                    kind: register.kind,
                    reset: register.reset,
                    width: register.width,
                })
                .collect(),
            states: (image.states())
                .map(|state| State {
                    parent: state.parent,
                    label: state.label,
                    command: state.command,
                    count: state.count,
                    bounds: state.bounds,
                })
                .collect(),
            commands: image.commands().map(node).collect(),
            expressions: image.expressions().map(node).collect(),
        })
    }

    /// How long the two areas are.
    pub fn areas(&self) -> (usize, usize) {
        (4 * self.registers.len(), TARGET_BYTES * self.states.len())
    }

    pub fn nodes(&mut self, family: Family) -> &mut Vec<Node> {
        match family {
            Family::Command => &mut self.commands,
            Family::Expression => &mut self.expressions,
        }
    }

    /// Label `from` flows to label `to`; a label that is none flows nowhere.
    pub fn flows(&self, from: u8, to: u8) -> bool {
        let row = self.rows.get(usize::from(from)).copied().unwrap_or(0);
        to < 16 && row >> to & 1 == 1
    }

    /// The registers of this kind.
    pub fn of_kind(&self, kind: u8) -> Vec<u8> {
        (0..self.registers.len())
            .filter(|&register| self.registers[register].kind == kind)
            .map(|register| register as u8)
            .collect()
    }

    /// The states with this parent; the root is nobody's child.
    pub fn children(&self, parent: usize) -> Vec<u8> {
        (1..self.states.len())
            .filter(|&child| usize::from(self.states[child].parent) == parent)
            .map(|child| child as u8)
            .collect()
    }
}

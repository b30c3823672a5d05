//! The image as five slices of records, once its directory holds (refusal 1).

use super::directory::{records, sections};
use super::limits::*;
use super::refusal::Refusal;

pub const INNER: u8 = 0;
pub const PORT: u8 = 1;

pub const CONSTANT: u8 = 0;
pub const READ: u8 = 1;
// The operations between have no names: they are the kinds 2 to 8.
pub const SIGNED_LESS: u8 = 9;
pub const SHIFT: u8 = 10;
pub const DIVIDE: u8 = 11;
pub const LAST_OPERATION: u8 = DIVIDE;

pub const SKIP: u8 = 0;
pub const ASSIGN: u8 = 1;
pub const SEQUENCE: u8 = 2;
pub const FALL: u8 = 3;
pub const GOTO: u8 = 4;
pub const IF: u8 = 5;

#[derive(Clone, Copy)]
pub struct Image<'a> {
    rows: &'a [[u8; ROW_BYTES]],
    registers: &'a [[u8; REGISTER_BYTES]],
    states: &'a [[u8; STATE_BYTES]],
    commands: &'a [[u8; NODE_BYTES]],
    expressions: &'a [[u8; NODE_BYTES]],
}

pub struct Register {
    pub label: u8,
    pub kind: u8,
    pub reset: u32,
    pub width: u8,
}

impl Register {
    /// 2 to the power of the width, less 1. Expects a width in its range.
    pub fn most(&self) -> u32 {
        u32::MAX >> (WIDEST - self.width)
    }
}

#[derive(Clone, Copy, Default)]
pub struct State {
    pub parent: u8,
    /// A label, or what stands for the label of a parameter in scope.
    pub label: u8,
    pub command: u16,
    /// So many parameters of its own.
    pub count: u8,
    pub bounds: [Bounds; MOST_PARAMETERS],
}

/// The labels that a parameter may have lie between these, ends included.
#[derive(Clone, Copy, Debug, Default, PartialEq, Eq)]
pub struct Bounds {
    pub lower: u8,
    pub upper: u8,
}

impl State {
    fn read(bytes: &[u8; STATE_BYTES]) -> State {
        let [parent, label, c0, c1, count, lower0, upper0, lower1, upper1] = *bytes;
        let bounds = |lower, upper| Bounds { lower, upper };
        State {
            parent,
            label,
            command: u16::from_le_bytes([c0, c1]),
            count,
            bounds: [bounds(lower0, upper0), bounds(lower1, upper1)],
        }
    }

    pub fn bytes(&self) -> [u8; STATE_BYTES] {
        let [c0, c1] = self.command.to_le_bytes();
        let [one, other] = self.bounds;
        let (parent, label, count) = (self.parent, self.label, self.count);
        [
            parent,
            label,
            c0,
            c1,
            count,
            one.lower,
            one.upper,
            other.lower,
            other.upper,
        ]
    }

    /// The pairs that the count uses, and those that it does not.
    pub fn pairs(&self) -> (&[Bounds], &[Bounds]) {
        let used = usize::from(self.count).min(MOST_PARAMETERS);
        self.bounds.split_at(used)
    }
}

#[derive(Clone, Copy)]
pub struct Node {
    pub kind: u8,
    /// Byte 1: a register or a state.
    pub which: u8,
    pub a: u16,
    pub b: u16,
    pub c: u16,
}

impl Node {
    fn read(bytes: &[u8; NODE_BYTES]) -> Node {
        let [kind, which, a0, a1, b0, b1, c0, c1] = *bytes;
        Node {
            kind,
            which,
            a: u16::from_le_bytes([a0, a1]),
            b: u16::from_le_bytes([b0, b1]),
            c: u16::from_le_bytes([c0, c1]),
        }
    }

    pub fn bytes(&self) -> [u8; NODE_BYTES] {
        let [a0, a1] = self.a.to_le_bytes();
        let [b0, b1] = self.b.to_le_bytes();
        let [c0, c1] = self.c.to_le_bytes();
        [self.kind, self.which, a0, a1, b0, b1, c0, c1]
    }

    /// A goto's arguments: the fields that so many parameters of the named state use, and the others.
    pub fn arguments(&self, count: u8) -> (Vec<u16>, Vec<u16>) {
        let mut used = vec![self.a, self.b];
        let unused = used.split_off(usize::from(count).min(MOST_PARAMETERS));
        (used, unused)
    }

    /// The 32 bits in bytes 4 to 7.
    pub fn constant(&self) -> u32 {
        u32::from(self.b) | u32::from(self.c) << 16
    }
}

impl<'a> Image<'a> {
    /// Refusal 1: directory, count or section length.
    pub fn open(bytes: &'a [u8]) -> Result<Image<'a>, Refusal> {
        Image::cut(bytes).ok_or(Refusal::new(1, 0))
    }

    fn cut(bytes: &'a [u8]) -> Option<Image<'a>> {
        let [rows, registers, states, commands, expressions] = sections(bytes)?;
        Some(Image {
            rows: records(rows, 1, MOST_LABELS)?,
            registers: records(registers, 0, MOST_REGISTERS)?,
            states: records(states, 1, MOST_STATES)?,
            commands: records(commands, 0, MOST_COMMANDS)?,
            expressions: records(expressions, 0, MOST_EXPRESSIONS)?,
        })
    }

    pub fn rows(&self) -> impl ExactSizeIterator<Item = u16> + 'a {
        self.rows.iter().map(|row| u16::from_le_bytes(*row))
    }

    pub fn registers(&self) -> impl ExactSizeIterator<Item = Register> + 'a {
        self.registers
            .iter()
            .map(|&[label, kind, r0, r1, r2, r3, width]| Register {
                label,
                kind,
                reset: u32::from_le_bytes([r0, r1, r2, r3]),
                width,
            })
    }

    pub fn states(&self) -> impl ExactSizeIterator<Item = State> + 'a {
        self.states.iter().map(State::read)
    }

    pub fn commands(&self) -> impl DoubleEndedIterator<Item = Node> + ExactSizeIterator + 'a {
        self.commands.iter().map(Node::read)
    }

    pub fn expressions(&self) -> impl DoubleEndedIterator<Item = Node> + ExactSizeIterator + 'a {
        self.expressions.iter().map(Node::read)
    }
}

//! A table cut into its records. They may keep the rules or break any of them.

pub mod limits;
pub mod node;
pub mod old;
pub mod parameters;
pub mod place;
pub mod read;
mod write;

pub use node::Node;

#[derive(Clone, Debug, Default, PartialEq, Eq)]
pub struct Table {
    pub rows: Vec<u16>,
    pub registers: Vec<Register>,
    pub states: Vec<State>,
    pub commands: Vec<Node>,
    pub expressions: Vec<Node>,
}

#[derive(Clone, Copy, Debug, PartialEq, Eq)]
pub struct Register {
    pub label: u8,
    pub kind: u8,
    pub reset: u32,
    pub width: u8,
}

#[derive(Clone, Copy, Debug, PartialEq, Eq)]
pub struct State {
    pub parent: u8,
    pub label: u8,
    pub command: u16,
    pub count: u8,
    pub bounds: [Bounds; limits::PARAMETERS],
}

/// The labels between which a parameter's lies.
#[derive(Clone, Copy, Debug, Default, PartialEq, Eq)]
pub struct Bounds {
    pub lower: u8,
    pub upper: u8,
}

pub const INNER: u8 = 0;
pub const PORT: u8 = 1;

/// The largest value of a width, or None where the width is out of its range.
pub fn largest(width: u8) -> Option<u32> {
    (1..=limits::WIDTH)
        .contains(&width)
        .then(|| u32::MAX >> (limits::WIDTH - width))
}

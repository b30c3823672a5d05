//! How large a generated design is to be.

use super::random::Random;
use crate::reference::limits::{
    MOST_COMMANDS, MOST_EXPRESSIONS, MOST_LABELS, MOST_REGISTERS, MOST_STATES,
};

#[derive(Clone, Copy, Debug)]
pub struct Size {
    /// At most so many labels; exactly the most if it is the most.
    pub labels: usize,
    pub registers: usize,
    /// At least 2: the root falls to a child.
    pub states: usize,
    /// Together in all bodies; one more or less may come out.
    pub commands: usize,
    pub expressions: usize,
}

impl Size {
    pub const LARGEST: Size = Size {
        labels: MOST_LABELS,
        registers: MOST_REGISTERS,
        states: MOST_STATES,
        commands: MOST_COMMANDS,
        expressions: MOST_EXPRESSIONS,
    };

    /// A part of the largest, with as many labels as can be.
    pub fn part_of_largest(part: usize, of: usize) -> Size {
        Size {
            labels: MOST_LABELS,
            registers: MOST_REGISTERS * part / of,
            states: MOST_STATES * part / of,
            commands: MOST_COMMANDS * part / of,
            expressions: MOST_EXPRESSIONS * part / of,
        }
    }

    /// Small ones often, the largest sometimes.
    pub fn random(random: &mut Random) -> Size {
        let (registers, states, commands, expressions) = match random.below(20) {
            0 => return Size::LARGEST,
            1..=2 => (MOST_REGISTERS, MOST_STATES, MOST_COMMANDS, MOST_EXPRESSIONS),
            3..=6 => (24, 24, 300, 900),
            7..=13 => (10, 12, 80, 240),
            _ => (4, 5, 16, 60),
        };
        let states = random.between(2, states);
        Size {
            labels: random.between(1, MOST_LABELS - 1),
            registers: random.between(0, registers),
            states,
            commands: random.between(states, commands.max(states)),
            expressions: random.between(0, expressions),
        }
    }
}

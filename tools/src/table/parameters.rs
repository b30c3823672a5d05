//! The parameters of a state: which are in scope of it, and how bytes name them. The table may break any
//! rule: a state goes no further up than its parents have lower numbers, and has no more parameters than
//! its record has room for.

use super::limits::{PARAMETERS, PARAMETER_LABEL, PARAMETER_REGISTER};
use super::{Bounds, State, Table};

/// The number of the parameter that a byte names in the place of a register.
pub fn of_register(byte: u16) -> Option<usize> {
    named(byte, PARAMETER_REGISTER)
}

/// The byte that names a parameter in the place of a register.
pub fn register_byte(number: usize) -> u16 {
    u16::from(PARAMETER_REGISTER) + number as u16
}

/// The number of the parameter that a state's label byte names.
pub fn of_label(byte: u8) -> Option<usize> {
    named(u16::from(byte), PARAMETER_LABEL)
}

fn named(byte: u16, first: u8) -> Option<usize> {
    let number = usize::from(byte.checked_sub(u16::from(first))?);
    (number < PARAMETERS).then_some(number)
}

impl State {
    /// Its own parameters, as far as the record has them.
    pub fn parameters(&self) -> &[Bounds] {
        &self.bounds[..usize::from(self.count).min(PARAMETERS)]
    }
}

impl Table {
    /// The parameters of the states above, from the root down, and then its own.
    pub fn scope(&self, state: usize) -> Vec<Bounds> {
        let mut scope = self.inherited(state);
        scope.extend(self.states[state].parameters());
        scope
    }

    /// Those of the states above alone.
    pub fn inherited(&self, state: usize) -> Vec<Bounds> {
        let parent = usize::from(self.states[state].parent);
        match parent < state {
            true => self.scope(parent),
            false => Vec::new(),
        }
    }

    /// The state that has a parameter in scope, and which of its own it is.
    pub fn owner(&self, state: usize, number: usize) -> Option<(usize, usize)> {
        match number.checked_sub(self.inherited(state).len()) {
            Some(own) => (own < self.states[state].parameters().len()).then_some((state, own)),
            None => self.owner(self.states[state].parent.into(), number),
        }
    }

    /// The lowest-numbered child of a state.
    pub fn default_child(&self, state: usize) -> Option<usize> {
        (1..self.states.len()).find(|&child| usize::from(self.states[child].parent) == state)
    }

    pub fn flows(&self, from: u8, to: u8) -> bool {
        let row = self.rows.get(usize::from(from)).copied().unwrap_or(0);
        u32::from(to) < u16::BITS && row >> to & 1 == 1
    }
}

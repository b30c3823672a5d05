//! Parameters in a table, by their bounds alone: the reference tries all choices instead.

use super::Table;
use crate::reference::image::{Bounds, INNER};
use crate::reference::limits::{PARAMETER_LABEL, PARAMETER_REGISTER};
use crate::reference::scopes::parameter;

impl Table {
    pub fn has_parameters(&self) -> bool {
        self.states.iter().any(|state| state.count > 0)
    }

    /// The bounds of the parameters in scope of a state, its own ones last.
    pub fn scope(&self, state: usize) -> Vec<Bounds> {
        let record = &self.states[state];
        let parent = usize::from(record.parent);
        // In a spoiled table a parent may have any number.
        let mut scope = match parent < state {
            true => self.scope(parent),
            false => Vec::new(),
        };
        scope.extend(record.pairs());
        scope
    }

    /// The number in scope of the first parameter of the state's own.
    pub fn first_own(&self, state: usize) -> usize {
        let own = usize::from(self.states[state].count);
        self.scope(state).len().saturating_sub(own)
    }

    /// The label byte of what a register byte names: a label, or 16 and 17 for a parameter.
    pub fn label_of(&self, register: u8) -> u8 {
        match parameter(register, PARAMETER_REGISTER) {
            Some(number) => PARAMETER_LABEL + number as u8,
            // No label at all, where a spoiled table names no register.
            None => (self.registers.get(usize::from(register))).map_or(u8::MAX, |r| r.label),
        }
    }

    /// In a state with this scope one label byte flows to another, for each choice: both are one parameter,
    /// or the most that the one can be flows to the least that the other can be.
    pub fn always_flows(&self, scope: &[Bounds], from: u8, to: u8) -> bool {
        let bounds = |byte: u8| match parameter(byte, PARAMETER_LABEL) {
            Some(number) => scope.get(number).copied(),
            None => Some(Bounds {
                lower: byte,
                upper: byte,
            }),
        };
        match (bounds(from), bounds(to)) {
            (Some(one), Some(other)) => {
                let same = parameter(from, PARAMETER_LABEL).is_some() && from == to;
                same || self.flows(one.upper, other.lower)
            }
            _ => false,
        }
    }

    /// A register byte names what always lies within the bounds.
    pub fn always_within(&self, scope: &[Bounds], register: u8, bounds: Bounds) -> bool {
        let label = self.label_of(register);
        match parameter(label, PARAMETER_LABEL) {
            Some(number) => scope.get(number).is_some_and(|given| {
                self.flows(bounds.lower, given.lower) && self.flows(given.upper, bounds.upper)
            }),
            None => self.flows(bounds.lower, label) && self.flows(label, bounds.upper),
        }
    }

    /// The registers that may be bound to a parameter of these bounds, and the parameters in scope that may.
    pub fn fitting(&self, scope: &[Bounds], bounds: Bounds) -> Vec<u8> {
        let inner = self.of_kind(INNER);
        let parameters = (0..scope.len()).map(|number| PARAMETER_REGISTER + number as u8);
        let mut all: Vec<u8> = inner.into_iter().chain(parameters).collect();
        all.retain(|&byte| self.always_within(scope, byte, bounds));
        all
    }

    /// The label byte of the state that a goto names, with these arguments.
    pub fn named_label(&self, named: u8, arguments: &[u8]) -> u8 {
        let state = usize::from(named);
        let label = self.states[state].label;
        let own = parameter(label, PARAMETER_LABEL)
            .and_then(|number| number.checked_sub(self.first_own(state)));
        match own.and_then(|own| arguments.get(own)) {
            Some(&argument) => self.label_of(argument),
            None => label,
        }
    }
}

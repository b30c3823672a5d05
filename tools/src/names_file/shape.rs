//! What a names file has to have names for, as the table says.

use super::Family;
use crate::gates;
use crate::table::read::read;
use crate::table::Table;

pub struct Shape {
    pub family: Family,
    pub counts: [usize; 3],
    /// Of each state its parent and how many parameters it has of its own.
    pub states: Vec<(usize, usize)>,
}

impl Shape {
    /// None where the table cannot be cut into records.
    pub fn of(image: &[u8]) -> Option<Shape> {
        if !gates::is_table(image) {
            return read(image).ok().map(|table| Shape::of_design(&table));
        }
        let table = gates::read(image).ok()?;
        Some(Shape {
            family: Family::Gates,
            counts: table.counts(),
            states: Vec::new(),
        })
    }

    pub fn of_design(table: &Table) -> Shape {
        let [labels, registers, states, ..] = table.counts();
        let own = (table.states.iter())
            .map(|state| (usize::from(state.parent), state.parameters().len()))
            .collect();
        Shape {
            family: Family::Design,
            counts: [labels, registers, states],
            states: own,
        }
    }

    /// The states whose parameters are in scope of a state but its own, from the root down. A parent that is no lower
    /// gives none.
    pub fn above(&self, state: usize) -> Vec<usize> {
        let mut above = Vec::new();
        let mut at = state;
        while self.states[at].0 < at {
            at = self.states[at].0;
            above.insert(0, at);
        }
        above
    }
}

//! Where each record of a table stands in the text that it was made from: a label, register or state
//! at its name, a node where it begins. And what the text calls them.

use crate::names::Names;
use crate::table::place::Place;
use crate::text::fault::Position;
use crate::text::tree::Design;

pub struct Positions {
    labels: Vec<Position>,
    registers: Vec<Position>,
    states: Vec<Position>,
    /// In the order of the numbers, which the nodes get later.
    pub(crate) commands: Vec<Position>,
    pub(crate) expressions: Vec<Position>,
    pub(crate) names: Names,
}

impl Positions {
    /// Of all that a design declares, and of no node yet.
    pub(crate) fn of(design: &Design) -> Positions {
        let labels = design.labels.iter().map(|label| label.name.at);
        let registers = design.registers.iter().map(|register| register.name.at);
        let states = design.states.iter().map(|state| state.name.at);
        Positions {
            labels: labels.collect(),
            registers: registers.collect(),
            states: states.collect(),
            commands: Vec::new(),
            expressions: Vec::new(),
            names: Names::of_text(design),
        }
    }

    /// What the text calls its labels, registers and states.
    pub fn into_names(self) -> Names {
        self.names
    }

    pub(crate) fn at(&self, place: Place) -> Position {
        match place {
            Place::Label(number) => self.labels[number],
            Place::Register(number) => self.registers[number],
            Place::State(number) => self.states[number],
            Place::Command(number) => self.commands[number],
            Place::Expression(number) => self.expressions[number],
        }
    }
}

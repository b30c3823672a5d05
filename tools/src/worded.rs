//! What stands in the body of a state, as `print` shows it. The table may break any rule.

use crate::named::Named;
use crate::print::body::Reader;
use crate::print::records;
use crate::table::Bounds;

impl Named<'_> {
    pub fn label(&self, label: u8) -> String {
        records::label_name(self, label.into())
    }

    pub fn state(&self, state: u8) -> String {
        records::state_name(self, state)
    }

    /// A register, or a parameter in scope of the state.
    pub fn operand(&self, state: usize, byte: u16) -> String {
        records::operand_name(self, byte, &self.in_scope(state))
    }

    /// By its number in scope of the state.
    pub fn parameter(&self, state: usize, number: usize) -> String {
        records::parameter_name(&self.in_scope(state), number)
    }

    pub fn bounds(&self, bounds: Bounds) -> String {
        records::bounds(self, bounds)
    }

    pub fn expression(&self, state: usize, number: u16) -> String {
        let mut reader = Reader::new(self);
        reader.enter(state);
        reader.expression(number).text
    }
}

//! A table together with what its records are called. The table may break any rule, and what it names may not be
//! there.

use crate::names::Names;
use crate::table::{Bounds, Table};
use std::ops::Deref;

#[derive(Clone, Copy)]
pub struct Named<'a> {
    pub table: &'a Table,
    pub names: &'a Names,
}

/// A parameter in scope of a state.
pub struct Parameter {
    pub name: String,
    pub bounds: Bounds,
}

impl Deref for Named<'_> {
    type Target = Table;

    fn deref(&self) -> &Table {
        self.table
    }
}

impl Named<'_> {
    /// Those of the states above, from the root down, and then its own.
    pub fn in_scope(&self, state: usize) -> Vec<Parameter> {
        let record = &self.table.states[state];
        let parent = usize::from(record.parent);
        let mut scope = match parent < state {
            true => self.in_scope(parent),
            false => Vec::new(),
        };
        let own = self.names.parameters(state).iter().zip(record.parameters());
        scope.extend(own.map(|(name, bounds)| Parameter {
            name: name.clone(),
            bounds: *bounds,
        }));
        scope
    }
}

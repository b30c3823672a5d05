//! The two designs of a comparison, and what each calls its records: by the number, with the name behind it where it
//! is known.

use crate::named::Named;
use crate::names::Names;
use crate::table::Table;

#[derive(Clone, Copy)]
pub struct Side<'a> {
    pub table: &'a Table,
    pub names: Option<&'a Names>,
}

impl<'a> Side<'a> {
    pub fn label(&self, label: u8) -> String {
        both(label.into(), self.name(Names::labels, label.into()), None)
    }

    /// The name alone, or else the number: for lists.
    pub fn label_listed(&self, label: u8) -> String {
        let name = self.name(Names::labels, label.into());
        name.map_or_else(|| label.to_string(), str::to_string)
    }

    pub fn state(&self, state: u8) -> String {
        both(state.into(), self.name(Names::states, state.into()), None)
    }

    /// Of the parameters in scope of a state, by its number among them.
    pub fn parameter(&self, state: usize, number: usize) -> String {
        let table = self.table;
        let scope = self
            .names
            .map(|names| Named { table, names }.in_scope(state));
        let name = scope
            .as_deref()
            .and_then(|scope| Some(scope.get(number)?.name.as_str()));
        both(number, name, None)
    }

    fn name(&self, of: impl Fn(&'a Names) -> &'a [String], number: usize) -> Option<&'a str> {
        of(self.names?).get(number).map(String::as_str)
    }
}

#[derive(Clone, Copy)]
pub struct Sides<'a> {
    pub old: Side<'a>,
    pub new: Side<'a>,
}

/// Records that both designs have under one number. Where their names differ, the new one stands behind the old.
impl Sides<'_> {
    pub fn label(&self, number: usize) -> String {
        let [old, new] = [self.old, self.new].map(|side| side.name(Names::labels, number));
        both(number, old, new)
    }

    pub fn register(&self, number: usize) -> String {
        let [old, new] = [self.old, self.new].map(|side| side.name(Names::registers, number));
        both(number, old, new)
    }

    pub fn state(&self, number: usize) -> String {
        let [old, new] = [self.old, self.new].map(|side| side.name(Names::states, number));
        both(number, old, new)
    }
}

fn both(number: usize, old: Option<&str>, new: Option<&str>) -> String {
    match (old, new) {
        (None, None) => number.to_string(),
        (Some(old), Some(new)) if old != new => format!("{number} ({old}, now {new})"),
        (Some(name), _) | (None, Some(name)) => format!("{number} ({name})"),
    }
}

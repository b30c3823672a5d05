//! Two accepted designs side by side, request E14: what differs, and for which levels nothing changes.

mod bodies;
mod levels;
mod records;
mod sides;

use crate::names::Names;
use crate::table::Table;
use levels::InTheWay;
use sides::{Side, Sides};

pub struct Comparison<'a> {
    sides: Sides<'a>,
    /// What differs in labels, registers and state records apart from command numbers, a line each.
    records: Vec<String>,
    /// The states whose bodies differ, of those that both designs have.
    bodies: Vec<usize>,
}

/// Of designs that the library has accepted.
pub fn compare<'a>(old: &'a Table, new: &'a Table) -> Comparison<'a> {
    compare_named(old, new, [None, None])
}

/// With the names of the old design and of the new one, where they are known. They do not count.
pub fn compare_named<'a>(
    old: &'a Table,
    new: &'a Table,
    names: [Option<&'a Names>; 2],
) -> Comparison<'a> {
    let side = |table, names| Side { table, names };
    let sides = Sides {
        old: side(old, names[0]),
        new: side(new, names[1]),
    };
    Comparison {
        sides,
        records: records::differences(&sides),
        bodies: bodies::differing(old, new),
    }
}

impl Comparison<'_> {
    /// Whether the theorem says that nothing changes for a level.
    pub fn unchanged(&self, level: u8) -> bool {
        self.records.is_empty() && self.in_the_way(level).is_empty()
    }

    fn in_the_way(&self, level: u8) -> InTheWay {
        InTheWay::of(self.sides.old.table, &self.bodies, level)
    }

    /// In what the designs differ first, as one goes through the records and then the bodies; none where they are
    /// the same apart from node numbers.
    pub fn first(&self) -> Option<String> {
        let body = |&state: &usize| format!("the body of state {}", self.sides.state(state));
        let record = self.records.first().cloned();
        record.or_else(|| self.bodies.first().map(body))
    }

    /// What differs, and what follows for one level, or for each.
    pub fn words(&self, level: Option<u8>) -> String {
        let levels = match level {
            Some(level) => vec![level],
            None => (0..self.sides.old.table.rows.len() as u8).collect(),
        };
        let [records, bodies] = [self.records_said(), self.bodies_said()];
        let said = match (self.records.is_empty(), level) {
            (false, None) => self.level_said("Every level", 0),
            _ => levels
                .iter()
                .map(|&level| {
                    let name = format!("Level {}", self.sides.label(level.into()));
                    self.level_said(&name, level)
                })
                .collect(),
        };
        let meaning = levels::meaning(levels.iter().map(|&level| self.unchanged(level)));
        format!("{records}{bodies}\n{said}\n{meaning}")
    }

    fn records_said(&self) -> String {
        match self.records.is_empty() {
            true => "Labels, registers and state records are equal, apart from command numbers.\n".into(),
            false => format!(
                "Apart from command numbers, the new design has other labels, registers or state records:\n{}",
                lines(self.records.iter().cloned())
            ),
        }
    }

    fn bodies_said(&self) -> String {
        if self.bodies.is_empty() {
            let [old, new] = [self.sides.old, self.sides.new].map(|side| side.table.states.len());
            let both = match old == new {
                true => "",
                false => " that both designs have",
            };
            return format!("Bodies are the same in every state{both}, apart from node numbers.\n");
        }
        let bodies = self.bodies.iter().map(|&state| {
            let label = records::label_said(&self.sides, state);
            format!("state {}, {label}", self.sides.state(state))
        });
        format!(
            "Apart from node numbers, bodies differ in:\n{}",
            lines(bodies)
        )
    }

    /// A line on one level, or on all of them.
    fn level_said(&self, name: &str, level: u8) -> String {
        if self.unchanged(level) {
            return format!("{name}: nothing changes.\n");
        }
        let why = match self.records.is_empty() {
            true => self.in_the_way(level).words(&self.sides),
            false => levels::RECORDS.to_string(),
        };
        format!("{name}: the theorem says nothing. {why}\n")
    }
}

fn lines(items: impl Iterator<Item = String>) -> String {
    items.map(|item| format!("    {item}\n")).collect()
}

//! What labels, registers and states are called: as the text or the names file calls them, or else, in a table, by a
//! letter and the number.

use crate::names_file::{Entry, NamesFile};
use crate::table::place::Place;
use crate::table::Table;
use crate::text::tree::{Design, Name};

pub struct Names {
    labels: Vec<String>,
    registers: Vec<String>,
    states: Vec<String>,
    /// Of each state its own ones.
    parameters: Vec<Vec<String>>,
    origin: Origin,
}

/// Where the names are from.
enum Origin {
    Numbers,
    Text,
    /// With where the text declares labels, registers and states.
    File {
        source: String,
        lines: [Vec<usize>; 3],
    },
}

impl Names {
    /// A parameter has the number that it has in scope.
    pub fn of_table(table: &Table) -> Names {
        let own = |state: usize| {
            let first = table.inherited(state).len();
            numbered("p", first..first + table.states[state].parameters().len())
        };
        Names {
            labels: numbered("l", 0..table.rows.len()),
            registers: numbered("r", 0..table.registers.len()),
            states: numbered("s", 0..table.states.len()),
            parameters: (0..table.states.len()).map(own).collect(),
            origin: Origin::Numbers,
        }
    }

    pub fn of_text(design: &Design) -> Names {
        let text = |name: &Name| name.text.clone();
        let labels = design.labels.iter().map(|label| text(&label.name));
        let registers = (design.registers.iter()).map(|register| text(&register.name));
        let states = design.states.iter().map(|state| text(&state.name));
        let parameters = design.states.iter().map(|state| {
            let own = state.parameters.iter();
            own.map(|parameter| text(&parameter.name)).collect()
        });
        Names {
            labels: labels.collect(),
            registers: registers.collect(),
            states: states.collect(),
            parameters: parameters.collect(),
            origin: Origin::Text,
        }
    }

    /// Of a design's names file, which fits its table.
    pub fn of_file(file: &NamesFile) -> Names {
        let names = |entries: &Vec<Entry>| entries.iter().map(|one| one.name.clone()).collect();
        let lines = |entries: &Vec<Entry>| entries.iter().map(|one| one.line).collect();
        let [labels, registers, states] = file.kinds.each_ref().map(names);
        Names {
            labels,
            registers,
            states,
            parameters: file.parameters.iter().map(names).collect(),
            origin: Origin::File {
                source: file.source.clone(),
                lines: file.kinds.each_ref().map(lines),
            },
        }
    }

    pub fn label(&self, label: u8) -> &str {
        &self.labels[usize::from(label)]
    }

    pub fn register(&self, register: u8) -> &str {
        &self.registers[usize::from(register)]
    }

    pub fn state(&self, state: u8) -> &str {
        &self.states[usize::from(state)]
    }

    /// Those of a state, of its own alone.
    pub fn parameters(&self, state: usize) -> &[String] {
        &self.parameters[state]
    }

    pub(crate) fn labels(&self) -> &[String] {
        &self.labels
    }

    pub(crate) fn registers(&self) -> &[String] {
        &self.registers
    }

    pub(crate) fn states(&self) -> &[String] {
        &self.states
    }

    /// Whether they say more than the numbers do.
    pub fn known(&self) -> bool {
        !matches!(self.origin, Origin::Numbers)
    }

    pub fn label_named(&self, name: &str) -> Option<u8> {
        let number = self.labels.iter().position(|one| one == name);
        number.and_then(|number| number.try_into().ok())
    }

    /// The number of a state, and its name where it has one.
    pub fn numbered_state(&self, state: usize) -> String {
        match self.known() {
            true => format!("{state} ({})", self.states[state]),
            false => state.to_string(),
        }
    }

    /// `, line 15 of tank.caisson` for a label, register or state of a table with a names file, else nothing.
    pub(crate) fn declared(&self, place: Place) -> String {
        let Origin::File { source, lines } = &self.origin else {
            return String::new();
        };
        let [labels, registers, states] = lines;
        let line = match place {
            Place::Label(number) => labels[number],
            Place::Register(number) => registers[number],
            Place::State(number) => states[number],
            Place::Command(_) | Place::Expression(_) => return String::new(),
        };
        format!(", line {line} of {source}")
    }
}

fn numbered(letter: &str, numbers: std::ops::Range<usize>) -> Vec<String> {
    numbers.map(|number| format!("{letter}{number}")).collect()
}

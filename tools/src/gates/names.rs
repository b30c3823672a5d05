//! What wires are called: as the text or the names file calls them, or else by a letter for the kind and the number
//! among the wires of that kind.

use super::{GateTable, Wire};
use crate::names_file::NamesFile;
use crate::text::tree::Name;

pub struct WireNames {
    wires: Vec<String>,
    /// The text that declares them, and the line of each.
    lines: Option<(String, Vec<usize>)>,
}

impl WireNames {
    pub fn of_table(table: &GateTable) -> WireNames {
        let name = |number: usize| match table.wire(number) {
            Some(Wire::Input(input)) => format!("i{input}"),
            Some(Wire::FlipFlop(flipflop)) => format!("f{flipflop}"),
            Some(Wire::Gate(gate)) => format!("g{gate}"),
            None => none(number),
        };
        WireNames {
            wires: (0..table.wires()).map(name).collect(),
            lines: None,
        }
    }

    pub fn of_text(wires: &[Name]) -> WireNames {
        WireNames {
            wires: wires.iter().map(|wire| wire.text.clone()).collect(),
            lines: None,
        }
    }

    /// Of a gate table's names file, which fits its table.
    pub fn of_file(file: &NamesFile) -> WireNames {
        let wires = || file.kinds.iter().flatten();
        let lines = wires().map(|wire| wire.line).collect();
        WireNames {
            wires: wires().map(|wire| wire.name.clone()).collect(),
            lines: Some((file.source.clone(), lines)),
        }
    }

    /// What is not there has its number in square brackets.
    pub fn wire(&self, number: usize) -> String {
        let name = self.wires.get(number).cloned();
        name.unwrap_or_else(|| none(number))
    }

    /// `, line 9 of latch.caisson` for a wire of a table with a names file, else nothing.
    pub fn declared(&self, number: usize) -> String {
        let line =
            (self.lines.as_ref()).and_then(|(source, lines)| Some((source, lines.get(number)?)));
        line.map_or(String::new(), |(source, line)| {
            format!(", line {line} of {source}")
        })
    }
}

fn none(number: usize) -> String {
    format!("[wire {number}]")
}

//! The names file: what the records of a table are called, and where its text declares them. It stands beside the
//! table, and the library never sees it. `docs/FORMAT.md` has its form.

mod read;
mod shape;
mod write;

pub use read::Wrong;
pub use shape::Shape;
pub use write::summed;

use crate::gates;
use crate::text::faults::Faults;
use crate::text::tree::{Design, Name};
use crate::text::{self, gates::GateText};
use std::path::Path;

/// Behind the whole name of a table.
pub const ENDING: &str = ".names";

/// What every names file begins with.
pub const FIRST: &str = "caisson names ";

/// The version of its form.
const VERSION: &str = "2";

/// Bytes of the largest one that is written or read; the host has the same limit.
pub const LARGEST: usize = 1 << 20;

#[derive(Clone, Copy, Debug, PartialEq, Eq)]
pub enum Family {
    Design,
    Gates,
}

/// A name, and the line that declares it.
#[derive(Clone, Debug, PartialEq, Eq)]
pub struct Entry {
    pub name: String,
    pub line: usize,
}

#[derive(Clone, Debug, PartialEq, Eq)]
pub struct NamesFile {
    pub family: Family,
    /// The file name of the text, without folders.
    pub source: String,
    /// Labels, registers and states, or inputs, flip-flops and gates.
    pub kinds: [Vec<Entry>; 3],
    /// Of each state its own ones. A gate table has none.
    pub parameters: Vec<Vec<Entry>>,
}

impl Family {
    /// What an entry of each kind begins with.
    fn kinds(self) -> [&'static str; 3] {
        match self {
            Family::Design => ["label", "register", "state"],
            Family::Gates => ["input", "flipflop", "gate"],
        }
    }

    /// Words that are no names.
    fn reserved(self) -> &'static [&'static str] {
        match self {
            Family::Design => text::DESIGN.reserved,
            Family::Gates => text::gates::WORDS.reserved,
        }
    }

    /// The number of the first entry of each kind: wires are numbered through.
    fn first_numbers(self, counts: [usize; 3]) -> [usize; 3] {
        match self {
            Family::Design => [0; 3],
            Family::Gates => [0, counts[0], counts[0] + counts[1]],
        }
    }
}

impl NamesFile {
    /// Of the text of a file.
    pub fn of_text(file: &str, source: &str) -> Result<NamesFile, Faults> {
        match gates::is_text(source) {
            true => Ok(NamesFile::of_gates(file, &text::parse_gates(source)?)),
            false => Ok(NamesFile::of_design(file, &text::parse(source)?)),
        }
    }

    pub(crate) fn of_design(file: &str, design: &Design) -> NamesFile {
        let parameters = |names: &Vec<text::tree::Parameter>| {
            entries(names.iter().map(|parameter| &parameter.name))
        };
        NamesFile {
            family: Family::Design,
            source: source_name(file),
            kinds: [
                entries(design.labels.iter().map(|label| &label.name)),
                entries(design.registers.iter().map(|register| &register.name)),
                entries(design.states.iter().map(|state| &state.name)),
            ],
            parameters: (design.states.iter())
                .map(|state| parameters(&state.parameters))
                .collect(),
        }
    }

    pub(crate) fn of_gates(file: &str, text: &GateText) -> NamesFile {
        NamesFile {
            family: Family::Gates,
            source: source_name(file),
            kinds: [
                entries(text.inputs.iter().map(|input| &input.name)),
                entries(text.flipflops.iter().map(|flipflop| &flipflop.name)),
                entries(text.gates.iter().map(|gate| &gate.name)),
            ],
            parameters: Vec::new(),
        }
    }

    /// Of the design with these states alone, which are numbered anew.
    pub fn with_states(&self, stays: &[bool]) -> NamesFile {
        let [labels, registers, states] = &self.kinds;
        NamesFile {
            kinds: [labels.clone(), registers.clone(), staying(states, stays)],
            parameters: staying(&self.parameters, stays),
            source: self.source.clone(),
            family: self.family,
        }
    }
}

fn entries<'a>(names: impl Iterator<Item = &'a Name>) -> Vec<Entry> {
    let entry = |name: &Name| Entry {
        name: name.text.clone(),
        line: name.at.line,
    };
    names.map(entry).collect()
}

fn staying<T: Clone>(all: &[T], stays: &[bool]) -> Vec<T> {
    let both = all.iter().zip(stays);
    both.filter(|(_, stays)| **stays)
        .map(|(one, _)| one.clone())
        .collect()
}

/// One word, whatever the file is called.
fn source_name(file: &str) -> String {
    let name = Path::new(file).file_name();
    let name = name.map_or(file.as_bytes(), |name| name.as_encoded_bytes());
    let byte = |byte: &u8| match is_source(*byte) {
        true => char::from(*byte),
        false => '_',
    };
    match name {
        [] => "_".to_string(),
        name => name.iter().map(byte).collect(),
    }
}

fn is_source(byte: u8) -> bool {
    byte.is_ascii_alphanumeric() || b"._-".contains(&byte)
}

//! Tables of the formats before today's: known as such, and made into tables of today. Format 1 had register
//! records of 6 bytes, without a width; formats 1 and 2 had state records of 4 bytes, without parameters.
//! Nothing in a table names its format, so its directory has to tell, or else its registers and states.

use super::limits::{COUNTS, RECORDS, WIDTH};
use super::parameters::of_label;
use super::read::{cut, read, sections, REGISTERS, SECTIONS, STATES};
use super::{largest, Bounds, Table, PORT};

/// A format that was, with the lengths of the records that have changed since.
struct Format {
    number: u8,
    register: usize,
    state: usize,
}

/// The newer one first.
const OLD: [Format; 2] = [
    Format {
        number: 2,
        register: 7,
        state: 4,
    },
    Format {
        number: 1,
        register: 6,
        state: 4,
    },
];

const TODAY: u8 = 3;

/// The last tool of each old format.
const TOOLS: &str = "the tool of version 2.5.0, or of 1.2.0 if it is of format 1,";

/// What an image can be read as.
#[derive(Clone, Copy, Debug, PartialEq, Eq)]
pub enum Form {
    /// Today's format, or nothing at all.
    Today,
    /// The format of this number.
    Old(u8),
    /// Today's and an older one, as other designs. Today's decides.
    Either,
    /// Both old formats, as other designs. Nothing tells which.
    Unsure,
}

pub fn form(image: &[u8]) -> Form {
    let old: Vec<(u8, Table)> = (OLD.iter())
        .filter_map(|format| Some((format.number, format.read(image).ok()?)))
        .collect();
    let keeping: Vec<(u8, Table)> = (old.iter())
        .filter(|(_, table)| records_keep(table))
        .cloned()
        .collect();
    match read(image) {
        Ok(today) if records_keep(&today) && !keeping.is_empty() => Form::Either,
        Ok(today) if records_keep(&today) || keeping.is_empty() => Form::Today,
        Ok(_) => one_of(&keeping),
        // The directory alone tells, but which of the old formats it is.
        Err(_) if keeping.is_empty() => old.first().map_or(Form::Today, |(one, _)| Form::Old(*one)),
        Err(_) => one_of(&keeping),
    }
}

/// Of formats that have the records of a table; without registers, both old ones have the same.
fn one_of(formats: &[(u8, Table)]) -> Form {
    match formats {
        [(_, one), (_, other)] if one != other => Form::Unsure,
        [(number, _), ..] => Form::Old(*number),
        [] => Form::Today,
    }
}

/// What a user is told of a table of an old format.
pub fn advice(image: &[u8]) -> Option<String> {
    match form(image) {
        Form::Old(number) => {
            let records = match number {
                1 => "register records have 6 bytes and whose state records 4",
                _ => "state records have 4 bytes",
            };
            Some(format!(
                "is a table of format {number}, whose {records}; \
                 `caisson upgrade OLD NEW` makes one of format {TODAY} from it"
            ))
        }
        Form::Unsure => Some(unsure()),
        Form::Today | Form::Either => None,
    }
}

fn unsure() -> String {
    format!(
        "is a table of format 2 or of format 1, and nothing tells which; \
         print it with {TOOLS} and assemble the text with this one"
    )
}

/// The image in today's format, or why not. What an old format did not have is what it meant: the full width
/// for each register, and no parameters.
pub fn upgrade(image: &[u8]) -> Result<Vec<u8>, String> {
    let old = match form(image) {
        Form::Old(number) => OLD.iter().find(|format| format.number == number),
        Form::Either => {
            return Err(format!(
                "can be read as a table of format {TODAY}, and is taken for one; if it is older, \
                 print it with {TOOLS} and assemble the text with this one"
            ))
        }
        Form::Unsure => return Err(unsure()),
        Form::Today if read(image).is_ok() => {
            return Err(format!("is a table of format {TODAY} already"))
        }
        Form::Today => OLD.first(),
    };
    let none = |why: String| format!("is no table of format 1 or 2: {why}");
    let old = old.map_or_else(|| read(image), |format| format.read(image));
    let old = old.map_err(none)?;
    for ((count, most), name) in old.counts().into_iter().zip(COUNTS).zip(SECTIONS) {
        if count > most {
            return Err(none(format!(
                "it has {count} {name}, and {most} are the most"
            )));
        }
    }
    Ok(old.image())
}

impl Format {
    /// The table as it is today.
    fn read(&self, image: &[u8]) -> Result<Table, String> {
        let mut records = RECORDS;
        records[REGISTERS] = self.register;
        records[STATES] = self.state;
        let mut sections = sections(image, SECTIONS, records)?;
        let registers = longer(sections[REGISTERS], self.register, REGISTERS, WIDTH);
        let states = longer(sections[STATES], self.state, STATES, 0);
        sections[REGISTERS] = &registers;
        sections[STATES] = &states;
        Ok(cut(sections))
    }
}

/// The records of a section with today's length, filled up with a byte.
fn longer(section: &[u8], old: usize, which: usize, fill: u8) -> Vec<u8> {
    let added = vec![fill; RECORDS[which] - old];
    section
        .chunks_exact(old)
        .flat_map(|record| [record, &added].concat())
        .collect()
}

/// Whether every register keeps rule 3, and every state rule 4 and what 19 says of its own bytes.
fn records_keep(table: &Table) -> bool {
    let labels = table.rows.len();
    let is_label = |label: u8| usize::from(label) < labels;
    let registers = table.registers.iter().all(|register| {
        is_label(register.label)
            && register.kind <= PORT
            && largest(register.width).is_some_and(|most| register.reset <= most)
    });
    let states = table.states.iter().enumerate().all(|(number, state)| {
        let (own, unused) = state.bounds.split_at(state.parameters().len());
        (usize::from(state.parent) < number || (number, state.parent) == (0, 0))
            && (is_label(state.label) || of_label(state.label).is_some())
            && usize::from(state.command) < table.commands.len()
            && usize::from(state.count) == own.len()
            && (own.iter()).all(|one| is_label(one.lower) && is_label(one.upper))
            && unused.iter().all(|one| *one == Bounds::default())
    });
    registers && states
}

//! The stored images and calls: the records that the proved program `cases` reads, and the text
//! that it must print, as the reference has it.

mod areas;
mod filing;
mod gate_refusals;
mod gates;
mod images;
mod journals;
mod lease;
mod parameters;
mod ports;
mod pruning;
mod raising;
mod record;
mod runs;
mod script;
mod signed;
mod spare;
mod text;
mod values;
mod widths;

use record::Record;
use script::Script;

/// Standard input of the program.
pub fn input() -> Vec<u8> {
    records().iter().flat_map(Record::bytes).collect()
}

/// What it prints.
pub fn output() -> String {
    text::of(&records())
}

fn records() -> Vec<Record> {
    let mut script = Script::default();
    images::add(&mut script);
    lease::add(&mut script);
    values::add(&mut script);
    signed::add(&mut script);
    runs::add(&mut script);
    spare::add(&mut script);
    ports::add(&mut script);
    widths::add(&mut script);
    areas::add(&mut script);
    raising::add(&mut script);
    parameters::add(&mut script);
    gates::add(&mut script);
    gate_refusals::add(&mut script);
    journals::add(&mut script);
    pruning::add(&mut script);
    filing::add(&mut script);
    script.end()
}

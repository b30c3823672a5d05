//! Images with the verdict that a sentence of document 01 or 02, a decided point or a worked design
//! gives them, operations with their values, raisings, prunings, and filings. They are asserted of the reference,
//! and stored for the proved program.

mod arguments;
mod children;
mod choices;
pub mod filing;
mod flow;
mod lattices;
mod nodes;
mod operations;
mod parameters;
mod ports;
pub mod pruning;
pub mod raising;
mod reading;
mod records;
mod shape;
mod taking;
pub mod values;
mod widths;

use crate::table::Table;

pub struct Example {
    pub sentence: String,
    pub image: Vec<u8>,
    /// Number and place of check's answer.
    pub verdict: (u32, usize),
}

pub fn all() -> Vec<Example> {
    let mut examples = records::examples();
    examples.extend(widths::examples());
    examples.extend(lattices::examples());
    examples.extend(nodes::examples());
    examples.extend(operations::examples());
    examples.extend(shape::examples());
    examples.extend(ports::examples());
    examples.extend(children::examples());
    examples.extend(flow::examples());
    examples.extend(reading::examples());
    examples.extend(parameters::examples());
    examples.extend(arguments::examples());
    examples.extend(choices::examples());
    examples
}

fn accepted(sentence: &str, table: &Table) -> Example {
    refused(sentence, table, 0, 0)
}

fn refused(sentence: &str, table: &Table, number: u32, place: usize) -> Example {
    bytes(sentence, table.image(), number, place)
}

fn bytes(sentence: &str, image: Vec<u8>, number: u32, place: usize) -> Example {
    Example {
        sentence: sentence.to_string(),
        image,
        verdict: (number, place),
    }
}

/// The design after a change.
fn changed(mut table: Table, change: impl FnOnce(&mut Table)) -> Table {
    change(&mut table);
    table
}

/// One register := another; goto 1.
fn copy_and_go(table: &mut Table, to: u8, from: u8) -> u16 {
    let value = table.read(from);
    let assign = table.assign(to, value);
    let go = table.goto(1);
    table.sequence(assign, go)
}

/// If r1 then goto 1 else goto 2.
fn go_by_r1(table: &mut Table) -> u16 {
    let condition = table.read(1);
    let then = table.goto(1);
    let otherwise = table.goto(2);
    table.branch(condition, then, otherwise)
}

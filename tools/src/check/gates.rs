//! The same of gate tables.

use super::{accepted, because, refused, Checked};
use crate::gates::{self, GateTable, WireNames};
use crate::library;
use crate::text::faults::Faults;

pub fn check(path: &str, source: &str) -> Result<Checked, Faults> {
    let (image, wires) = gates::assemble_placed(source)?;
    let table = gates::read(&image).unwrap_or_default();
    let answer = library::gates_check(&image);
    let words = match answer.number {
        0 => accepted(path, &counts(&table)),
        number => {
            let names = WireNames::of_text(&wires);
            let explained = gates::explain::explain_named(&image, Some(&names), answer);
            let at = wires.get(answer.place).map(|wire| wire.at);
            refused(path, source, at, number, because(&explained))
        }
    };
    Ok(Checked { answer, words })
}

fn counts(table: &GateTable) -> [(usize, &'static str); 3] {
    let [inputs, flipflops, gates] = table.counts();
    [(inputs, "input"), (flipflops, "flip-flop"), (gates, "gate")]
}

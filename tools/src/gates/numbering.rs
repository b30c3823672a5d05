//! Names to wires. The wires of each kind are numbered in the order of the text.

use super::{FlipFlop, GateTable, TRUSTED, UNTRUSTED};
use crate::declared::{twice, Declared, Lookup};
use crate::text::fault::Fault;
use crate::text::faults::Faults;
use crate::text::tree::Name;
use crate::text::{self, gates::GateText, gates::FIRST};
use std::collections::HashSet;

/// The bytes of a gate table's text, and the name of each wire where it is declared.
pub fn assemble_placed(source: &str) -> Result<(Vec<u8>, Vec<Name>), Faults> {
    let text = text::parse_gates(source)?;
    let (table, faults) = number(&text, &HashSet::new());
    let wires = names(&text).cloned().collect();
    Faults::or(faults, (table.image(), wires))
}

/// What is wrong with the names of a text that has other faults. Names in what was skipped may be declared there.
pub fn faults(text: &GateText, skipped: &HashSet<String>) -> Vec<Fault> {
    number(text, skipped).1
}

/// In the order of the wires.
fn names(text: &GateText) -> impl Iterator<Item = &Name> {
    let inputs = text.inputs.iter().map(|input| &input.name);
    let flipflops = text.flipflops.iter().map(|flipflop| &flipflop.name);
    let gates = text.gates.iter().map(|gate| &gate.name);
    inputs.chain(flipflops).chain(gates)
}

fn number(text: &GateText, skipped: &HashSet<String>) -> (GateTable, Vec<Fault>) {
    // Names are compared in the order of the text, so that the later of two is the one at fault.
    let mut in_text: Vec<&Name> = names(text).collect();
    in_text.sort_by_key(|name| name.at);
    let wires = Declared::new("wire", names(text));
    let mut lookup = Lookup {
        faults: twice("wire", in_text.into_iter()),
        skipped,
    };
    // Where there are more wires than a number has room for, the text has a fault.
    let mut wire = |name: &Name| lookup.take(FIRST, name, wires.find(name, &[])) as u16;
    let mark = |untrusted| if untrusted { UNTRUSTED } else { TRUSTED };
    let mut table = GateTable::default();
    for input in &text.inputs {
        table.inputs.push(mark(input.untrusted));
    }
    for flipflop in &text.flipflops {
        table.flipflops.push(FlipFlop {
            next: wire(&flipflop.next),
            value: flipflop.value,
            mark: mark(flipflop.untrusted),
        });
    }
    for gate in &text.gates {
        table
            .gates
            .push([wire(&gate.reads[0]), wire(&gate.reads[1])]);
    }
    (table, lookup.faults)
}

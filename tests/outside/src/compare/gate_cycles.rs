//! What a cycle of a gate table was lent, and what it has shown: the reasons that a comparison has to meet
//! beside those of the table.

use super::tally::Tally;
use crate::answer::Answer;
use crate::reference::gates::{check, wires, Signal, TRUSTED, UNTRUSTED};
use crate::reference::limits::PAIR_BYTES;
use crate::table::gates::GateTable;

/// A cycle as it was lent.
pub struct Lent<'a> {
    pub table: &'a [u8],
    pub inputs: &'a [u8],
    pub flipflops: &'a [u8],
}

/// The reasons of a cycle's answer that are not those of its table.
pub fn note_cycle(tally: &mut Tally, lent: &Lent, after: &[u8], answer: Answer) {
    let table = GateTable::read(lent.table).unwrap_or_default();
    note_lengths(tally, lent, &table, answer);
    note_values(tally, lent, &table, answer);
    note_signals(tally, lent, &table, answer);
    let changes = lent
        .flipflops
        .chunks(PAIR_BYTES)
        .zip(after.chunks(PAIR_BYTES));
    let becomes = |mark: u8| {
        let mut changes = changes.clone();
        answer.number == 0 && changes.any(|(old, new)| old[1] != mark && new[1] == mark)
    };
    tally.note("a flip-flop becomes trusted", becomes(TRUSTED));
    tally.note("a flip-flop becomes untrusted", becomes(UNTRUSTED));
}

/// Those of 14, and that it stands between the two of 26.
fn note_lengths(tally: &mut Tally, lent: &Lent, table: &GateTable, answer: Answer) {
    let inputs = (lent.inputs.len(), table.inputs.len());
    let area = (lent.flipflops.len(), table.area());
    let out_of_range = lent
        .inputs
        .iter()
        .chain(lent.flipflops)
        .any(|&byte| byte > 1);
    for (reason, met) in [
        ("14, one input too few", inputs.0 + 1 == inputs.1),
        ("14, one input too many", inputs.0 == inputs.1 + 1),
        ("14, no inputs lent", inputs.0 == 0 && inputs.1 != 0),
        ("14, the area too short by 1", area.0 + 1 == area.1),
        ("14, the area too long by 1", area.0 == area.1 + 1),
        ("14, no area lent", area.0 == 0 && area.1 != 0),
        ("14, where 26 for lent bytes would follow", out_of_range),
    ] {
        tally.note(reason, answer.number == 14 && met);
    }
    let before = answer.number == 26 && (inputs.0 != inputs.1 || area.0 != area.1);
    tally.note("26 for the table, where 14 would follow", before);
}

/// Those of 26 for lent bytes.
fn note_values(tally: &mut Tally, lent: &Lent, table: &GateTable, answer: Answer) {
    let inputs = table.inputs.len();
    let is_lent = answer.number == 26 && check(lent.table).number == 0;
    let number = answer.place.checked_sub(inputs).filter(|_| is_lent);
    let pair = number.and_then(|number| lent.flipflops.chunks(PAIR_BYTES).nth(number));
    let pair = |is: &dyn Fn(u8, u8) -> bool| pair.is_some_and(|pair| is(pair[0], pair[1]));
    let at_input = is_lent && answer.place < inputs;
    for (reason, met) in [
        ("26, an input's value", at_input),
        (
            "26, the last input's value",
            at_input && answer.place + 1 == inputs,
        ),
        (
            "26, an input before a flip-flop",
            at_input && lent.flipflops.iter().any(|&byte| byte > 1),
        ),
        (
            "26, a flip-flop's value alone",
            pair(&|value, mark| value > 1 && mark <= 1),
        ),
        (
            "26, a flip-flop's mark alone",
            pair(&|value, mark| value <= 1 && mark > 1),
        ),
        (
            "26, the last flip-flop",
            number.is_some_and(|number| number + 1 == table.flipflops.len()),
        ),
    ] {
        tally.note(reason, met);
    }
}

/// What the gates of an accepted cycle have shown of the marks.
fn note_signals(tally: &mut Tally, lent: &Lent, table: &GateTable, answer: Answer) {
    let signals = match answer.number {
        0 => wires(lent.table, lent.inputs, lent.flipflops).unwrap_or_default(),
        _ => Vec::new(),
    };
    let outputs = signals.iter().skip(table.first_gate());
    let some_gate = |mark: u8, one: Signal, other: Signal| {
        let mut gates = table.gates.iter().zip(outputs.clone());
        gates.any(|(reads, output)| {
            let [a, b] = reads.map(|wire| signals[usize::from(wire)]);
            output.mark == mark && [(a, b), (b, a)].contains(&(one, other))
        })
    };
    for (reason, mark, one, other) in [
        (
            "a trusted 0 decides over an untrusted 0",
            TRUSTED,
            ZERO,
            FREE_ZERO,
        ),
        (
            "a trusted 0 decides over an untrusted 1",
            TRUSTED,
            ZERO,
            FREE_ONE,
        ),
        ("a trusted 1 decides nothing", UNTRUSTED, ONE, FREE_ONE),
        ("an untrusted 0 decides nothing", UNTRUSTED, ONE, FREE_ZERO),
        ("two untrusted wires", UNTRUSTED, FREE_ZERO, FREE_ONE),
        ("two trusted wires", TRUSTED, ONE, ONE),
    ] {
        tally.note(reason, some_gate(mark, one, other));
    }
}

const ZERO: Signal = Signal::new(0, TRUSTED);
const ONE: Signal = Signal::new(1, TRUSTED);
const FREE_ZERO: Signal = Signal::new(0, UNTRUSTED);
const FREE_ONE: Signal = Signal::new(1, UNTRUSTED);

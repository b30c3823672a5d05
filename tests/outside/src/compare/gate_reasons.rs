//! Why a gate table was accepted or refused: the reasons that a comparison has to meet.

use super::tally::Tally;
use crate::answer::Answer;
use crate::reference::limits::*;
use crate::table::gates::GateTable;

/// What is wrong with the directory, in the order in which it is looked at here.
fn directory_fault(table: &[u8]) -> &'static str {
    let pairs: Vec<(usize, usize)> = (0..3).filter_map(|pair| pair_at(table, pair)).collect();
    let [(first, inputs), (second, flipflops), (third, gates)] = pairs[..] else {
        return "25, fewer than 12 bytes";
    };
    if first != GATES_DIRECTORY_BYTES {
        "25, the first offset is not 12"
    } else if second != first + inputs || third != second + flipflops {
        "25, a later offset"
    } else if third + gates != table.len() {
        "25, the sections end elsewhere than the table"
    } else if flipflops % FLIPFLOP_BYTES != 0 {
        "25, a part of a flip-flop"
    } else if gates % GATE_BYTES != 0 {
        "25, a part of a gate"
    } else if inputs == (MOST_INPUTS + 1) * INPUT_BYTES {
        "25, 257 inputs"
    } else if flipflops == (MOST_FLIPFLOPS + 1) * FLIPFLOP_BYTES {
        "25, 257 flip-flops"
    } else if gates == (MOST_GATES + 1) * GATE_BYTES {
        "25, 4,097 gates"
    } else {
        "25, another count"
    }
}

const DIRECTORY_FAULTS: &[&str] = &[
    "25, fewer than 12 bytes",
    "25, the first offset is not 12",
    "25, a later offset",
    "25, the sections end elsewhere than the table",
    "25, a part of a flip-flop",
    "25, a part of a gate",
    "25, 257 inputs",
    "25, 257 flip-flops",
    "25, 4,097 gates",
];

fn pair_at(table: &[u8], pair: usize) -> Option<(usize, usize)> {
    let bytes = table.get(4 * pair..4 * pair + 4)?;
    Some((half(bytes, 0), half(bytes, 2)))
}

fn half(bytes: &[u8], at: usize) -> usize {
    usize::from(u16::from_le_bytes([bytes[at], bytes[at + 1]]))
}

/// The reasons of a table's own answer.
pub fn note_table(tally: &mut Tally, bytes: &[u8], answer: Answer) {
    let fault = match answer.number {
        25 => directory_fault(bytes),
        _ => "",
    };
    for &reason in DIRECTORY_FAULTS {
        tally.note(reason, reason == fault);
    }
    let table = GateTable::read(bytes).unwrap_or_default();
    note_accepted(tally, &table, answer.number == 0);
    let wrong = (answer.number == 26).then_some(answer.place);
    note_wrong(tally, &table, wrong);
}

/// Counts and wires of an accepted table that are at an end of their range.
fn note_accepted(tally: &mut Tally, table: &GateTable, accepted: bool) {
    let counts = [table.inputs.len(), table.flipflops.len(), table.gates.len()];
    let [inputs, flipflops, gates] = counts;
    let most = [MOST_INPUTS, MOST_FLIPFLOPS, MOST_GATES];
    let last = table.wires().wrapping_sub(1);
    let next = || {
        table
            .flipflops
            .iter()
            .map(|flipflop| usize::from(flipflop.next))
    };
    let below = |which: usize| {
        let mut gates = table.gates.iter().zip(table.first_gate()..);
        gates.any(|(reads, own)| usize::from(reads[which]) + 1 == own)
    };
    for (reason, met) in [
        ("accepted, nothing but the directory", counts == [0; 3]),
        ("accepted, no inputs", inputs == 0),
        ("accepted, no flip-flops", flipflops == 0),
        ("accepted, no gates", gates == 0),
        ("accepted, 256 inputs", inputs == MOST_INPUTS),
        ("accepted, 256 flip-flops", flipflops == MOST_FLIPFLOPS),
        ("accepted, 4,096 gates", gates == MOST_GATES),
        ("accepted, every count the most", counts == most),
        (
            "accepted, a next wire is the last",
            next().any(|next| next == last),
        ),
        (
            "accepted, a next wire is the flip-flop itself",
            next().zip(inputs..).any(|(next, own)| next == own),
        ),
        (
            "accepted, a next wire is an input",
            next().any(|next| next < inputs),
        ),
        ("accepted, a gate reads the wire below first", below(0)),
        ("accepted, a gate reads the wire below second", below(1)),
    ] {
        tally.note(reason, accepted && met);
    }
}

/// The fields of the record at the place of 26.
fn note_wrong(tally: &mut Tally, table: &GateTable, wrong: Option<usize>) {
    let input = wrong.is_some_and(|wire| wire < table.inputs.len());
    let last = wrong.is_some_and(|wire| wire + 1 == table.wires());
    tally.note("26, an input's mark", input);
    tally.note("26, at wire 0", wrong == Some(0));
    tally.note("26, at the last wire", last);
    note_wrong_flipflop(tally, table, wrong);
    note_wrong_gate(tally, table, wrong);
}

fn note_wrong_flipflop(tally: &mut Tally, table: &GateTable, wrong: Option<usize>) {
    let number = wrong.and_then(|wire| wire.checked_sub(table.inputs.len()));
    let record = number.and_then(|number| table.flipflops.get(number));
    let total = table.wires();
    let next = record.map_or(0, |record| usize::from(record.next));
    let (value, mark) = record.map_or((0, 0), |record| (record.value, record.mark));
    for (reason, met) in [
        ("26, a next wire one above the last", next == total),
        ("26, a next wire further above", next > total),
        (
            "26, a start value alone",
            next < total && value > 1 && mark <= 1,
        ),
        (
            "26, a start mark alone",
            next < total && value <= 1 && mark > 1,
        ),
    ] {
        tally.note(reason, record.is_some() && met);
    }
}

fn note_wrong_gate(tally: &mut Tally, table: &GateTable, wrong: Option<usize>) {
    let number = wrong.and_then(|wire| wire.checked_sub(table.first_gate()));
    let record = number.and_then(|number| table.gates.get(number));
    let own = wrong.unwrap_or(0);
    let [first, second] = record.map_or([0; 2], |reads| reads.map(usize::from));
    for (reason, met) in [
        (
            "26, a gate reads itself first",
            first == own && second < own,
        ),
        (
            "26, a gate reads itself second",
            second == own && first < own,
        ),
        (
            "26, a gate reads a higher wire first",
            first > own && second < own,
        ),
        (
            "26, a gate reads a higher wire second",
            second > own && first < own,
        ),
        (
            "26, a gate behind 256 inputs and 256 flip-flops",
            table.first_gate() == 512,
        ),
    ] {
        tally.note(reason, record.is_some() && met);
    }
}

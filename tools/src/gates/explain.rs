//! A verdict on a gate table in words: the rule, the wire, and why the rule fails there.

use super::bytes::SECTIONS;
use super::names::WireNames;
use super::print::declaration;
use super::{read, GateTable, Wire, UNTRUSTED};
use crate::explain::{rules, source};
use crate::library::Answer;
use crate::table::limits::GATES_COUNTS;
use crate::table::read::pairs;
use crate::text::tree::Name;

pub fn explain(image: &[u8], answer: Answer) -> String {
    explain_named(image, None, answer)
}

/// With the names of the wires, where they are known.
pub fn explain_named(image: &[u8], names: Option<&WireNames>, answer: Answer) -> String {
    let Answer { number, place, .. } = answer;
    if number == 0 {
        return "accepted\n".to_string();
    }
    let rule = rules::rule(number);
    let described = match read(image) {
        Err(why) => directory(image, &why),
        Ok(table) if number == 25 => directory(image, &count(&table)),
        Ok(table) => {
            let numbers = WireNames::of_table(&table);
            wire(&table, names.unwrap_or(&numbers), place)
        }
    };
    format!("refused by {number} at place {place}\n\n{rule}\n\n{described}")
}

/// With the line of the text that declares the wire.
pub fn explain_text(text: &str, image: &[u8], wires: &[Name], answer: Answer) -> String {
    let words = explain_named(image, Some(&WireNames::of_text(wires)), answer);
    match wires.get(answer.place) {
        Some(wire) if answer.number == 26 => format!("{words}\n{}", source::line(text, wire.at)),
        _ => words,
    }
}

fn directory(image: &[u8], why: &str) -> String {
    let pairs = pairs::<3>(image).into_iter();
    let pairs: Vec<String> = pairs
        .map(|(offset, length)| format!("{offset},{length}"))
        .collect();
    let (length, pairs) = (image.len(), pairs.join(" "));
    format!("The directory of a gate table of {length} bytes ({why}):\n    {pairs}\n")
}

fn count(table: &GateTable) -> String {
    let counts = table.counts().into_iter().zip(GATES_COUNTS).zip(SECTIONS);
    let too_many: Vec<String> = counts
        .filter(|((count, most), _)| count > most)
        .map(|((count, most), name)| format!("{count} {name}, and {most} are the most"))
        .collect();
    too_many.join("; ")
}

fn wire(table: &GateTable, names: &WireNames, number: usize) -> String {
    let kind = match table.wire(number) {
        Some(Wire::Input(_)) => "an input",
        Some(Wire::FlipFlop(_)) => "a flip-flop",
        Some(Wire::Gate(_)) => "a gate",
        None => "none of the table",
    };
    let bytes: Vec<String> = (table.record(number).iter())
        .map(|byte| byte.to_string())
        .collect();
    let (bytes, text) = (bytes.join(" "), declaration(table, names, number));
    let why: String = (reasons(table, names, number).iter())
        .map(|reason| format!("    {reason}\n"))
        .collect();
    let line = names.declared(number);
    format!("Wire {number}, {kind}{line} (bytes {bytes}):\n    {text}\n\nBecause:\n{why}")
}

/// Each field of the wire's record that is out of its range.
fn reasons(table: &GateTable, names: &WireNames, number: usize) -> Vec<String> {
    let mut reasons = Vec::new();
    let mut mark = |mark: u8| {
        if mark > UNTRUSTED {
            reasons.push(format!(
                "mark {mark} is neither 0 (trusted) nor 1 (untrusted)"
            ));
        }
    };
    match table.wire(number) {
        Some(Wire::Input(input)) => mark(table.inputs[input]),
        Some(Wire::FlipFlop(flipflop)) => {
            let record = table.flipflops[flipflop];
            mark(record.mark);
            if record.value > 1 {
                reasons.push(format!("start value {} is neither 0 nor 1", record.value));
            }
            let last = table.wires() - 1;
            if usize::from(record.next) > last {
                let next = record.next;
                reasons.push(format!(
                    "next wire {next} is none: the table has wires 0 to {last}"
                ));
            }
        }
        Some(Wire::Gate(gate)) => {
            let [first, second] = table.gates[gate];
            for (which, read) in [("first", first), ("second", second)] {
                if usize::from(read) >= number {
                    let name = names.wire(read.into());
                    reasons.push(format!(
                        "its {which} wire {read}, {name}, is not lower than its own, {number}"
                    ));
                }
            }
        }
        None => {}
    }
    reasons
}

//! Why a register is refused by 3: each of its fields that is out of range.

use crate::table::limits::WIDTH;
use crate::table::{largest, Table, PORT};

pub fn reasons(table: &Table, register: usize) -> String {
    let record = table.registers[register];
    let labels = table.rows.len();
    let mut reasons = Vec::new();
    if usize::from(record.label) >= labels {
        let (label, last) = (record.label, labels - 1);
        reasons.push(format!(
            "label {label} is none: the design has labels 0 to {last}"
        ));
    }
    if record.kind > PORT {
        let kind = record.kind;
        reasons.push(format!("kind {kind} is neither 0 (inner) nor 1 (port)"));
    }
    let (width, reset) = (record.width, record.reset);
    match largest(width) {
        None => reasons.push(format!("width {width} is not from 1 to {WIDTH}")),
        Some(most) if reset > most => reasons.push(format!(
            "reset value {reset} is too large: width {width} holds 0 to {most}"
        )),
        Some(_) => {}
    }
    reasons
        .into_iter()
        .map(|reason| format!("    {reason}\n"))
        .collect()
}

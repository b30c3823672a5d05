//! Registers that are of no use, or always have one value.

use super::uses::Uses;
use super::Warning;
use crate::named::Named;
use crate::prune::reached::Reached;
use crate::table::place::Place;
use crate::table::{Register, PORT};

/// Where something happens to a register.
#[derive(Clone, Copy, PartialEq, Eq)]
enum Where {
    /// In a state that is reached.
    Reached,
    /// Only in states that never are.
    Unreached,
    Nowhere,
}

pub fn warnings(named: &Named, reached: &Reached) -> Vec<Warning> {
    let table = named.table;
    let runs = Uses::of(table, |state| reached.stays(state));
    let all = Uses::of(table, |_| true);
    let mut warnings = Vec::new();
    for (number, record) in table.registers.iter().enumerate() {
        let register = number as u8;
        let place = |in_runs: bool, in_all: bool| match (in_runs, in_all) {
            (true, _) => Where::Reached,
            (false, true) => Where::Unreached,
            (false, false) => Where::Nowhere,
        };
        let read = place(runs.read.contains(&register), all.read.contains(&register));
        let assigned = place(
            runs.assigned.contains(&register),
            all.assigned.contains(&register),
        );
        let gives_label = runs.labels.contains(&register);
        let name = named.names.register(register);
        let words = match record.kind {
            PORT => of_port(name, read),
            _ if gives_label && (read, assigned) == (Where::Nowhere, Where::Nowhere) => None,
            _ => of_inner(name, record, read, assigned),
        };
        warnings.extend(words.map(|words| Warning {
            place: Place::Register(number),
            record: Place::Register(number),
            words,
        }));
    }
    warnings
}

fn of_port(name: &str, read: Where) -> Option<String> {
    match read {
        Where::Reached => None,
        Where::Unreached => Some(format!("port `{name}` is read {ONLY_UNREACHED}")),
        Where::Nowhere => Some(format!("port `{name}` is never read")),
    }
}

const ONLY_UNREACHED: &str = "only in states that are never reached";

fn of_inner(name: &str, record: &Register, read: Where, assigned: Where) -> Option<String> {
    let always = format!("it always has its reset value {}", record.reset);
    let what = match (read, assigned) {
        (Where::Reached, Where::Reached) => return None,
        (Where::Nowhere, Where::Nowhere) => "is neither read nor assigned".to_string(),
        (Where::Unreached, Where::Unreached) => format!("is read and assigned {ONLY_UNREACHED}"),
        (Where::Nowhere, Where::Reached) => {
            "is assigned and never read: only the host sees it".to_string()
        }
        (Where::Unreached, Where::Reached) => format!("is read {ONLY_UNREACHED}"),
        (Where::Reached, Where::Nowhere) => format!("is never assigned: {always}"),
        (Where::Reached, Where::Unreached) => format!("is assigned {ONLY_UNREACHED}: {always}"),
        (Where::Nowhere, Where::Unreached) => {
            format!("is never read, and assigned {ONLY_UNREACHED}")
        }
        (Where::Unreached, Where::Nowhere) => {
            format!("is never assigned, and read {ONLY_UNREACHED}")
        }
    };
    Some(format!("register `{name}` {what}"))
}

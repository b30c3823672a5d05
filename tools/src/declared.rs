//! The names of the labels, of the registers, of the states or of the wires of a gate table, and their numbers.

use crate::near::near;
use crate::text::fault::Fault;
use crate::text::habits;
use crate::text::tree::Name;
use std::collections::{HashMap, HashSet};

pub struct Declared<'a> {
    what: &'static str,
    /// In the order of their numbers.
    names: Vec<&'a str>,
    numbers: HashMap<&'a str, usize>,
}

impl<'a> Declared<'a> {
    /// Of a name that is declared twice the first counts, as `twice` tells.
    pub fn new(what: &'static str, names: impl Iterator<Item = &'a Name>) -> Declared<'a> {
        let names: Vec<&str> = names.map(|name| name.text.as_str()).collect();
        let numbers = names.iter().enumerate().rev();
        Declared {
            what,
            numbers: numbers.map(|(number, name)| (*name, number)).collect(),
            names,
        }
    }

    pub fn has(&self, name: &Name) -> bool {
        self.numbers.contains_key(name.text.as_str())
    }

    /// Or a fault, which may say of what other kind the name is.
    pub fn find(&self, name: &Name, others: &[&Declared]) -> Result<usize, Fault> {
        let number = self.numbers.get(name.text.as_str()).copied();
        number.ok_or_else(|| {
            let expected = format!("the name of a {}", self.what);
            let fault = Fault::new(name.at, expected, format!("`{}`", name.text));
            let other = others.iter().find(|other| other.has(name));
            match (other, habits::name(&name.text)) {
                (Some(other), _) => fault.hint(format!("`{}` is a {}", name.text, other.what)),
                (None, Some(hint)) => fault.hint(hint),
                (None, None) => fault.did_you_mean(near(&name.text, self.names.iter().copied())),
            }
        })
    }
}

/// A fault for each name that another of its kind has above it. The names are in the order of the text.
pub fn twice<'a>(what: &str, names: impl Iterator<Item = &'a Name>) -> Vec<Fault> {
    let mut lines: HashMap<&str, usize> = HashMap::new();
    let mut faults = Vec::new();
    for name in names {
        let Some(line) = lines.get(name.text.as_str()) else {
            lines.insert(&name.text, name.at.line);
            continue;
        };
        let expected = format!("a name that no {what} above has");
        let fault = Fault::new(name.at, expected, format!("`{}`", name.text));
        faults.push(fault.hint(format!("line {line} declares it first")));
    }
    faults
}

/// Faults without those that are about a name in what was skipped.
pub struct Lookup<'a> {
    pub faults: Vec<Fault>,
    pub skipped: &'a HashSet<String>,
}

impl Lookup<'_> {
    /// A number that stands for none where there is a fault; the table is not used then.
    /// The kind is that of the parser where a declaration has no name.
    pub fn take(&mut self, kind: &str, name: &Name, found: Result<usize, Fault>) -> usize {
        found.unwrap_or_else(|mut fault| {
            if !self.skipped.contains(&name.text) && !self.skipped.contains(kind) {
                if fault.hint.is_none() {
                    let mut skipped: Vec<&str> = self.skipped.iter().map(String::as_str).collect();
                    skipped.sort();
                    fault = fault.did_you_mean(near(&name.text, skipped));
                }
                self.faults.push(fault);
            }
            0
        })
    }
}

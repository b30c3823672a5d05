//! All that is wrong in a text, in the order of the text.

use super::excerpt::excerpt;
use super::fault::Fault;
use std::collections::HashSet;
use std::fmt;

/// So many are shown; the others are counted.
const SHOWN: usize = 20;

#[derive(Clone, Debug, PartialEq, Eq)]
pub struct Faults(Vec<Fault>);

impl Faults {
    /// Of several at one place the first found counts: the others come of it.
    pub fn new(faults: Vec<Fault>) -> Faults {
        let mut places = HashSet::new();
        let mut faults = faults;
        faults.retain(|fault| places.insert(fault.at));
        faults.sort_by_key(|fault| fault.at);
        Faults(faults)
    }

    /// None of them is a fault of its own: what was found without any is right.
    pub fn or<T>(faults: Vec<Fault>, found: T) -> Result<T, Faults> {
        match faults.is_empty() {
            true => Ok(found),
            false => Err(Faults::new(faults)),
        }
    }

    pub fn list(&self) -> &[Fault] {
        &self.0
    }

    /// As compilers do: the place, the message, the line with a marker, and the hint. No line end is last.
    pub fn report(&self, path: &str, source: &str) -> String {
        let shown = self.0.iter().take(SHOWN);
        let mut text: String = shown.map(|fault| one(fault, path, source)).collect();
        if self.0.len() > SHOWN {
            text += &format!("and {} more\n", self.0.len() - SHOWN);
        }
        text.pop();
        text
    }
}

fn one(fault: &Fault, path: &str, source: &str) -> String {
    let hint = fault.hint.iter();
    let hint: String = hint.map(|hint| format!("    hint: {hint}\n")).collect();
    let (line, column) = (fault.at.line, fault.at.column);
    let lines = excerpt(source, fault.at);
    format!("{path}:{line}:{column}: {}\n{lines}{hint}", fault.message())
}

impl fmt::Display for Faults {
    fn fmt(&self, out: &mut fmt::Formatter) -> fmt::Result {
        let lines: Vec<String> = self.0.iter().map(Fault::to_string).collect();
        out.write_str(&lines.join("\n"))
    }
}

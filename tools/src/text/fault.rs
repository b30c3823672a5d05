//! Where a text goes wrong, what was expected there, and what may have been meant.

use std::fmt;

/// Line and column, both from 1. Columns are counted in characters.
#[derive(Clone, Copy, Debug, PartialEq, Eq, PartialOrd, Ord, Hash)]
pub struct Position {
    pub line: usize,
    pub column: usize,
}

#[derive(Clone, Debug, PartialEq, Eq)]
pub struct Fault {
    pub at: Position,
    pub expected: String,
    pub found: String,
    /// For what people write from habit.
    pub hint: Option<String>,
}

impl Fault {
    pub fn new(at: Position, expected: impl Into<String>, found: impl Into<String>) -> Fault {
        Fault {
            at,
            expected: expected.into(),
            found: found.into(),
            hint: None,
        }
    }

    pub fn hint(mut self, hint: impl Into<String>) -> Fault {
        self.hint = Some(hint.into());
        self
    }

    /// With a hint where one word is nearly another.
    pub fn did_you_mean(self, meant: Option<&str>) -> Fault {
        match meant {
            Some(meant) => self.hint(format!("did you mean `{meant}`?")),
            None => self,
        }
    }

    pub fn message(&self) -> String {
        format!("expected {}, found {}", self.expected, self.found)
    }
}

impl fmt::Display for Fault {
    fn fmt(&self, out: &mut fmt::Formatter) -> fmt::Result {
        let Position { line, column } = self.at;
        write!(out, "line {line}, column {column}: {}", self.message())
    }
}

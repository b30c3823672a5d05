//! How much a text may have, so that its table is within the limits and the parser within its stack.

use super::fault::{Fault, Position};
use super::parser::Parser;

/// As deep as a table's 2,048 expressions can nest. It bounds the parser's recursion.
const NESTING: usize = 1_024;

impl Parser {
    /// Refusal 1 has no place, so what is one too many is found here, where it stands. It is told once.
    pub fn bound(&mut self, at: Position, count: usize, most: usize, what: &str) {
        if count == most + 1 {
            self.record(too_many(at, most, what));
        }
    }

    /// The same of what has to end the reading, as all that follows would be too many.
    pub fn limit(&mut self, count: usize, most: usize, what: &str) -> Result<(), Fault> {
        if count <= most {
            return Ok(());
        }
        let fault = too_many(self.at(), most, what);
        self.record(fault.clone());
        self.stopped = true;
        self.next = self.tokens.len() - 1;
        Err(fault)
    }

    /// Parses one level further in.
    pub fn nested<T>(
        &mut self,
        parse: impl FnOnce(&mut Parser) -> Result<T, Fault>,
    ) -> Result<T, Fault> {
        self.limit(self.nesting + 1, NESTING, "levels of nesting")?;
        self.nesting += 1;
        let parsed = parse(self);
        self.nesting -= 1;
        parsed
    }
}

fn too_many(at: Position, most: usize, what: &str) -> Fault {
    Fault::new(at, format!("at most {most} {what}"), "one more")
}

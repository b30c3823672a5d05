//! A table as its image: the directory, then the five sections.

use super::limits::{DIRECTORY, RECORDS};
use super::Table;

impl Table {
    pub fn image(&self) -> Vec<u8> {
        let mut image = self.directory();
        for row in &self.rows {
            image.extend(row.to_le_bytes());
        }
        for register in &self.registers {
            image.extend([register.label, register.kind]);
            image.extend(register.reset.to_le_bytes());
            image.push(register.width);
        }
        for state in &self.states {
            image.extend([state.parent, state.label]);
            image.extend(state.command.to_le_bytes());
            image.push(state.count);
            for bounds in state.bounds {
                image.extend([bounds.lower, bounds.upper]);
            }
        }
        for node in self.commands.iter().chain(&self.expressions) {
            image.extend(node.bytes());
        }
        image
    }

    /// Labels, registers, states, commands and expressions.
    pub fn counts(&self) -> [usize; 5] {
        [
            self.rows.len(),
            self.registers.len(),
            self.states.len(),
            self.commands.len(),
            self.expressions.len(),
        ]
    }

    /// Within the limits every offset and length fits in 16 bits.
    fn directory(&self) -> Vec<u8> {
        let mut directory = Vec::with_capacity(DIRECTORY);
        let mut offset = DIRECTORY;
        for (count, record) in self.counts().into_iter().zip(RECORDS) {
            directory.extend((offset as u16).to_le_bytes());
            directory.extend(((count * record) as u16).to_le_bytes());
            offset += count * record;
        }
        directory
    }
}

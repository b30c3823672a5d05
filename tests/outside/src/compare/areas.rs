//! Lent areas, each between guard bytes.

use crate::generate::random::Random;
use crate::reference::limits::COUNT_BYTES;
use crate::table::Table;

/// Longer than any wrong length adds.
const GUARD: usize = 32;

#[derive(Clone, PartialEq, Eq)]
pub struct Area {
    bytes: Vec<u8>,
    length: usize,
}

impl Area {
    /// Any contents, guards included.
    pub fn new(length: usize, random: &mut Random) -> Area {
        let bytes = (0..length + 2 * GUARD).map(|_| random.bits() as u8);
        Area {
            bytes: bytes.collect(),
            length,
        }
    }

    pub fn length(&self) -> usize {
        self.length
    }

    /// The area as it should be lent.
    pub fn whole(&mut self) -> &mut [u8] {
        self.lend(self.length)
    }

    /// The area lent with some length, perhaps a wrong one.
    pub fn lend(&mut self, length: usize) -> &mut [u8] {
        &mut self.bytes[GUARD..GUARD + length]
    }
}

#[derive(Clone, PartialEq, Eq)]
pub struct Areas {
    pub registers: Area,
    pub targets: Area,
    pub journal: Area,
}

/// How long each area is lent.
#[derive(Clone, Copy, Debug)]
pub struct Lengths {
    pub registers: usize,
    pub targets: usize,
    pub journal: usize,
}

/// The areas as a call is lent them; it takes those that it is about.
pub struct Lent<'a> {
    pub registers: &'a mut [u8],
    pub targets: &'a mut [u8],
    pub journal: &'a mut [u8],
}

impl Areas {
    /// Any contents, and a journal with room for so many cycles and some bytes more.
    pub fn new(table: &Table, room: usize, random: &mut Random) -> Areas {
        let (registers, targets) = table.areas();
        let state = registers + targets;
        let journal = COUNT_BYTES + state * room + random.below(state);
        Areas {
            registers: Area::new(registers, random),
            targets: Area::new(targets, random),
            journal: Area::new(journal, random),
        }
    }

    /// The lengths that they should be lent with.
    pub fn lengths(&self) -> Lengths {
        Lengths {
            registers: self.registers.length(),
            targets: self.targets.length(),
            journal: self.journal.length(),
        }
    }

    pub fn whole(&mut self) -> Lent<'_> {
        self.lend(self.lengths())
    }

    pub fn lend(&mut self, lengths: Lengths) -> Lent<'_> {
        Lent {
            registers: self.registers.lend(lengths.registers),
            targets: self.targets.lend(lengths.targets),
            journal: self.journal.lend(lengths.journal),
        }
    }

    pub fn values(&mut self) -> Vec<u32> {
        let (values, _) = self.registers.whole().as_chunks::<4>();
        values
            .iter()
            .map(|value| u32::from_le_bytes(*value))
            .collect()
    }

    pub fn set_value(&mut self, register: usize, value: u32) {
        let place = 4 * register..4 * register + 4;
        self.registers.whole()[place].copy_from_slice(&value.to_le_bytes());
    }

    /// The bytes of a saved state.
    pub fn state_length(&self) -> usize {
        self.registers.length() + self.targets.length()
    }

    /// What the journal says it has saved.
    pub fn count(&mut self) -> u32 {
        let count = self.journal.whole().first_chunk::<COUNT_BYTES>();
        u32::from_le_bytes(*count.expect("room for a count"))
    }

    pub fn set_count(&mut self, count: u32) {
        self.journal.whole()[..COUNT_BYTES].copy_from_slice(&count.to_le_bytes());
    }

    /// For so many cycles there is room in the journal.
    pub fn room(&self) -> usize {
        (self.journal.length() - COUNT_BYTES) / self.state_length()
    }

    /// The saved state of this number, below the room.
    pub fn saved(&mut self, number: usize) -> &mut [u8] {
        let state = self.state_length();
        &mut self.journal.whole()[COUNT_BYTES + number * state..][..state]
    }

    /// All saved states that are counted. Expects a count within the room.
    pub fn all_saved(&mut self) -> &[u8] {
        let length = self.count() as usize * self.state_length();
        &self.journal.whole()[COUNT_BYTES..][..length]
    }
}

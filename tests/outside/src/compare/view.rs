//! What a party sees of a list of calls that an engine makes.

use super::areas::Areas;
use super::calls::Call;
use super::difference::Difference;
use super::engine::Engine;
use crate::answer::Answer;
use crate::reference::limits::MOST_PARAMETERS;
use crate::reference::machine::{Machine, Ran};
use crate::table::Table;

/// One design, lent to an engine for whole lists.
pub struct Stage<'a> {
    pub engine: &'a Engine,
    pub table: &'a Table,
    pub image: &'a [u8],
    /// Tells the walks, which no call answers.
    pub machine: &'a Machine,
}

/// A state that is seen: its number, and the numbers of the registers bound to its own parameters.
pub type Sight = (u8, [Option<u8>; MOST_PARAMETERS]);

/// For each cycle the low registers after it and the low part of its walk, by the labels that the states
/// had as they ran, with the registers that were bound to them; and the low registers at the end.
#[derive(PartialEq, Eq)]
pub struct Seen {
    pub cycles: Vec<(Vec<u32>, Vec<Sight>)>,
    pub last: Vec<u32>,
}

impl Seen {
    /// Some state is seen with a register that was bound to it.
    pub fn shows_binding(&self) -> bool {
        let mut walks = self.cycles.iter().flat_map(|(_, walk)| walk);
        walks.any(|(_, bound)| bound[0].is_some())
    }
}

impl Stage<'_> {
    pub fn make(&self, call: Call, areas: &mut Areas) -> Answer {
        self.engine.make(call, self.image, areas.whole())
    }

    /// Makes every call of the list on the areas, and gives what is seen at the level.
    pub fn watch(&self, level: u8, list: &[Call], areas: &mut Areas) -> Result<Seen, Difference> {
        let mut cycles = Vec::new();
        for &call in list {
            let mut before = areas.clone();
            let answer = self.make(call, areas);
            if let (Some(one), 0) = (call.of_one_cycle(), answer.number) {
                for _ in 0..answer.count {
                    cycles.push(self.cycle(level, one, &mut before));
                }
                if before != *areas {
                    let what = format!("{call:?} is not so many runs of one cycle");
                    return Err(Difference::new(self.image, &what, answer, ""));
                }
            }
        }
        Ok(Seen {
            cycles,
            last: self.low_values(level, areas),
        })
    }

    /// The walk of the next cycle, which is what the step rules give from the areas before it.
    pub fn walk(&self, areas: &mut Areas) -> Vec<Ran> {
        let mut walk: Vec<Ran> = Vec::new();
        let mut targets = areas.targets.whole().to_vec();
        self.machine
            .cycle(&mut areas.values(), &mut targets, &mut walk);
        walk
    }

    /// One cycle by the engine, with the journal or without.
    fn cycle(&self, level: u8, call: Call, areas: &mut Areas) -> (Vec<u32>, Vec<Sight>) {
        let walk = self.low_walk(level, areas);
        self.make(call, areas);
        (self.low_values(level, areas), walk)
    }

    /// The low part of the walk of the next cycle.
    pub fn low_walk(&self, level: u8, areas: &mut Areas) -> Vec<Sight> {
        let mut walk = self.walk(areas);
        walk.retain(|ran| self.table.flows(ran.label, level));
        walk.iter().map(|ran| (ran.state, ran.bound)).collect()
    }

    pub fn low_values(&self, level: u8, areas: &mut Areas) -> Vec<u32> {
        let registers = self.table.registers.iter();
        registers
            .zip(areas.values())
            .filter(|(register, _)| self.table.flows(register.label, level))
            .map(|(_, value)| value)
            .collect()
    }
}

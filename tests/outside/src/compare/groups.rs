//! Figures 2(b) and 2(c) of document 004: a design with two groups, and one that has a single body for both.
//! The walk and the views of either party are the same.

use super::areas::Areas;
use super::calls::Call;
use super::difference::Difference;
use super::engine::Engine;
use super::view::Stage;
use crate::generate::random::Random;
use crate::reference::image::{Image, PORT};
use crate::reference::machine::{Machine, Ran};
use crate::table::Table;
use std::collections::BTreeMap;
use std::fs;
use std::path::Path;

const CYCLES: usize = 400;

/// Both designs, two groups first.
pub struct Groups {
    pub two: Table,
    pub shared: Table,
}

/// A state as it ran in the design with one body: its number, and the registers bound along its line.
type Bound = (u8, Vec<u8>);

impl Groups {
    /// From the folder of designs.
    pub fn stored() -> Result<Groups, String> {
        let folder = Path::new(env!("CARGO_MANIFEST_DIR")).join("../../designs");
        let table = |name: &str| {
            let path = folder.join(name);
            let bytes = fs::read(&path).map_err(|error| format!("{}: {error}", path.display()))?;
            Table::open(&bytes).ok_or(format!("{}: no table", path.display()))
        };
        Ok(Groups {
            two: table("two_groups.table")?,
            shared: table("two_groups_shared.table")?,
        })
    }

    /// Runs both from reset, with the same port writes, and compares every cycle. Gives for each state of
    /// the first, in the order of numbers, what it is in the second.
    pub fn compare(&self, engine: &Engine, seed: u64) -> Result<Vec<Bound>, Difference> {
        let images = [self.two.image(), self.shared.image()];
        let sections = images
            .each_ref()
            .map(|image| Image::open(image).expect("a table"));
        let machines = sections.each_ref().map(Machine::new);
        let [two, shared] = [(0, &self.two), (1, &self.shared)].map(|(which, table)| Stage {
            engine,
            table,
            image: &images[which],
            machine: &machines[which],
        });
        let mut random = Random::new(seed);
        let mut areas = [
            Areas::new(&self.two, 0, &mut random),
            Areas::new(&self.shared, 0, &mut random),
        ];
        let mut known = BTreeMap::new();
        let mut calls = vec![Call::Reset];
        calls.extend((0..CYCLES).flat_map(|_| self.writes_and_cycle(&mut random)));
        for call in calls {
            let [one, other] = &mut areas;
            if let Call::Run { .. } = call {
                let walks = (two.walk(one), along_the_line(&shared.walk(other)));
                join(&mut known, walks).map_err(|why| two.differ(&why))?;
            }
            let answers = [two.make(call, one), shared.make(call, other)];
            if answers[0].number != 0 || answers[0] != answers[1] {
                return Err(two.differ(&format!("{call:?}: {} and {}", answers[0], answers[1])));
            }
            self.same_registers(&two, &shared, &mut areas)
                .map_err(|why| two.differ(&why))?;
        }
        let known: Vec<Bound> = known.into_values().collect();
        if known.len() != self.two.states.len() {
            return Err(two.differ("some state of the two groups never ran"));
        }
        Ok(known)
    }

    fn writes_and_cycle(&self, random: &mut Random) -> Vec<Call> {
        let mut calls = Vec::new();
        for register in self.two.of_kind(PORT) {
            if random.percent(40) {
                let value = random.below(2) as u32;
                calls.push(Call::WritePort {
                    register: register.into(),
                    value,
                });
            }
        }
        calls.push(Call::Run { cycles: 1 });
        calls
    }

    /// The registers of the two groups stand first in both. Either party sees the same ones, with the same
    /// values.
    fn same_registers(
        &self,
        two: &Stage,
        shared: &Stage,
        [one, other]: &mut [Areas; 2],
    ) -> Result<(), String> {
        let common = self.two.registers.len();
        if self.shared.registers.get(..common) != Some(&self.two.registers[..]) {
            return Err("the registers of the two groups do not stand first in both".to_string());
        }
        for level in 0..self.two.rows.len() as u8 {
            let seen = two.low_values(level, one);
            if shared.low_values(level, other).get(..seen.len()) != Some(&seen[..]) {
                return Err(format!("level {level} sees other registers"));
            }
        }
        Ok(())
    }
}

impl Stage<'_> {
    fn differ(&self, what: &str) -> Difference {
        Difference::new(self.image, what, "two groups and one body", "")
    }
}

/// Each state with its label and what was bound on the way to it.
fn along_the_line(walk: &[Ran]) -> Vec<(u8, Bound)> {
    let mut bound = Vec::new();
    let with_bound = |ran: &Ran| {
        bound.extend(ran.bound.iter().flatten());
        (ran.label, (ran.state, bound.clone()))
    };
    walk.iter().map(with_bound).collect()
}

/// The two walks have the same labels, so either party sees the same part of them; and a state of the one
/// is always the same bound state of the other, and no other state is.
fn join(
    known: &mut BTreeMap<u8, Bound>,
    (two, shared): (Vec<Ran>, Vec<(u8, Bound)>),
) -> Result<(), String> {
    let differ = || Err(format!("walks {two:?} and {shared:?}"));
    if two.len() != shared.len() {
        return differ();
    }
    for (ran, (label, bound)) in two.iter().zip(&shared) {
        let taken = known
            .iter()
            .any(|(state, other)| *state != ran.state && other == bound);
        let same = known.entry(ran.state).or_insert_with(|| bound.clone()) == bound;
        if ran.label != *label || taken || !same {
            return differ();
        }
    }
    Ok(())
}

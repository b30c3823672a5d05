//! Random gate tables and random cycles of them by both: answers and all lent bytes are compared.

use super::areas::Area;
use super::difference::Difference;
use super::gate_cycles::{note_cycle, Lent};
use super::gate_reasons::note_table;
use super::tally::Tally;
use crate::answer::Answer;
use crate::designs::gates as designs;
use crate::generate::faults::{damaged, resized, spoil_gate_directory, spoil_gate_record};
use crate::generate::gates::*;
use crate::generate::random::Random;
use crate::reference::refusal;
use crate::table::gates::GateTable;
use crate::{library, reference};

/// Runs of so many cycles at least have to be met.
const MANY_CYCLES: usize = 1_000;

#[derive(Default)]
pub struct Tallies {
    check: Tally,
    reset: Tally,
    cycle: Tally,
    longest_run: usize,
}

impl Tallies {
    pub fn print(&self) {
        self.check.print("gates check");
        self.reset.print("gates reset");
        self.cycle.print("gates cycle");
        println!("longest run of gates: {} cycles", self.longest_run);
    }

    pub fn missing(&self) -> Vec<String> {
        let check = self.check.missing_of(&[25, 26]);
        let reset = self.reset.missing_of(refusal::GATES);
        let cycle = self.cycle.missing_of(refusal::GATES);
        let named = |name: &'static str, missing: Vec<String>| {
            let missing = missing.into_iter();
            missing.map(move |what| format!("gates {name}: {what}"))
        };
        let mut missing: Vec<String> = named("check", check)
            .chain(named("reset", reset))
            .chain(named("cycle", cycle))
            .collect();
        if self.longest_run < MANY_CYCLES {
            missing.push(format!("gates: a run of {MANY_CYCLES} cycles"));
        }
        missing
    }

    fn compare_check(&mut self, table: &[u8]) -> Result<Answer, Difference> {
        let lent = table.to_vec().into_boxed_slice();
        let given = library::gates_check(&lent);
        let expected = reference::gates::check(table);
        if given != expected || *lent != *table {
            return Err(Difference::new(table, "gates check", given, expected));
        }
        self.check.add(expected, table.len());
        note_table(&mut self.check, table, expected);
        Ok(expected)
    }

    /// Into areas of the same bytes, lent with some length.
    fn compare_reset(
        &mut self,
        table: &[u8],
        area: &Area,
        length: usize,
    ) -> Result<(), Difference> {
        let lent = table.to_vec().into_boxed_slice();
        let (mut given_area, mut expected_area) = (area.clone(), area.clone());
        let given = library::gates_reset(&lent, given_area.lend(length));
        let expected = reference::gates::reset(table, expected_area.lend(length));
        if given != expected || given_area != expected_area || *lent != *table {
            let what = format!("gates reset of an area of {length} bytes, which may differ too");
            return Err(Difference::new(table, &what, given, expected));
        }
        self.reset.add(expected, table.len());
        let contents = area.clone().lend(length).iter().any(|&byte| byte > 1);
        let right = area.length();
        for (reason, number, met) in [
            ("accepted, bytes out of range overwritten", 0, contents),
            ("accepted, an area of no bytes", 0, length == 0),
            ("14, the area too short by 1", 14, length + 1 == right),
            ("14, the area too long by 1", 14, length == right + 1),
        ] {
            self.reset.note(reason, expected.number == number && met);
        }
        Ok(())
    }

    /// The area is changed by both in the same way.
    fn compare_cycle(
        &mut self,
        table: &[u8],
        inputs: &[u8],
        area: &mut Area,
        length: usize,
    ) -> Result<Answer, Difference> {
        let lent = table.to_vec().into_boxed_slice();
        let lent_inputs = inputs.to_vec().into_boxed_slice();
        let before = area.lend(length).to_vec();
        let mut given_area = area.clone();
        let given = library::gates_cycle(&lent, &lent_inputs, given_area.lend(length));
        let expected = reference::gates::cycle(table, inputs, area.lend(length));
        if given != expected || given_area != *area || *lent != *table || *lent_inputs != *inputs {
            let what = format!(
                "gates cycle, inputs {inputs:?}, area {before:?}; bytes afterwards {:?} and {:?}",
                given_area.lend(length),
                area.lend(length)
            );
            return Err(Difference::new(table, &what, given, expected));
        }
        self.cycle.add(expected, table.len());
        let lent = Lent {
            table,
            inputs,
            flipflops: &before,
        };
        note_cycle(&mut self.cycle, &lent, area.lend(length), expected);
        Ok(expected)
    }

    /// All three calls, with lengths and lent bytes that are right or wrong.
    fn calls(
        &mut self,
        table: &GateTable,
        bytes: &[u8],
        random: &mut Random,
    ) -> Result<(), Difference> {
        self.compare_check(bytes)?;
        let area = Area::new(table.area(), random);
        let length = some_length(table.area(), random);
        self.compare_reset(bytes, &area, length)?;
        let mut area = area;
        area.whole().copy_from_slice(&gate_area(random, table));
        let mut inputs = gate_inputs(random, table.inputs.len());
        if random.percent(30) {
            spoil_lent(&mut inputs, area.whole(), random);
        }
        inputs.resize(some_length(inputs.len(), random), random.below(3) as u8);
        let length = some_length(table.area(), random);
        self.compare_cycle(bytes, &inputs, &mut area, length)?;
        Ok(())
    }

    /// From a reset on, or from any marks and values.
    fn run(
        &mut self,
        table: &GateTable,
        cycles: usize,
        random: &mut Random,
    ) -> Result<(), Difference> {
        let bytes = table.bytes();
        let mut area = Area::new(table.area(), random);
        if random.percent(50) {
            self.compare_reset(&bytes, &area, table.area())?;
            reference::gates::reset(&bytes, area.whole());
        } else {
            area.whole().copy_from_slice(&gate_area(random, table));
        }
        for _ in 0..cycles {
            let inputs = gate_inputs(random, table.inputs.len());
            let answer = self.compare_cycle(&bytes, &inputs, &mut area, table.area())?;
            if answer.number != 0 {
                return Ok(());
            }
        }
        self.longest_run = self.longest_run.max(cycles);
        Ok(())
    }
}

/// Mostly the right one; near it, none, twice as many, half.
fn some_length(right: usize, random: &mut Random) -> usize {
    match random.below(40) {
        0 => right + 1,
        1 => right.saturating_sub(1),
        2 => 0,
        3 => right + random.between(2, 32),
        4 => right / 2,
        _ => right,
    }
}

/// One byte or some are no value and no mark.
fn spoil_lent(inputs: &mut [u8], area: &mut [u8], random: &mut Random) {
    for _ in 0..*random.pick(&[1, 1, 2, 5]) {
        let bytes = match random.below(2) {
            0 => &mut *inputs,
            _ => &mut *area,
        };
        if !bytes.is_empty() {
            bytes[random.index(bytes.len())] = *random.pick(&[2, 2, 3, 128, 255]);
        }
    }
}

/// The tables that need no chance: worked ones, ends of all counts, and a long run.
pub fn fixed_tables(tallies: &mut Tallies) -> Result<(), Difference> {
    let given = library::gates_about_null();
    if given != [Answer::refused(25, 0); 3] {
        let what = "gates calls of null, lengths 0";
        return Err(Difference::new(&[], what, given[0], "25 by all three"));
    }
    let mut random = Random::new(0);
    let mut tables = vec![designs::counter(), designs::ring(7), GateTable::default()];
    tables
        .extend((0..8).map(|marks| designs::multiplexer([marks & 1, marks >> 1 & 1, marks >> 2])));
    for counts in ends_of_counts() {
        tables.push(gate_table(&mut random, counts));
    }
    for table in tables {
        tallies.calls(&table, &table.bytes(), &mut random)?;
        tallies.run(&table, 8, &mut random)?;
    }
    let table = gate_table(&mut random, [4, 8, 40]);
    tallies.run(&table, 10 * MANY_CYCLES, &mut random)?;
    let ring = designs::ring(256);
    tallies.run(&ring, 2 * MANY_CYCLES, &mut random)
}

/// Each count none, one, the most, and what was the most less one, the others small or the most.
fn ends_of_counts() -> Vec<GateCounts> {
    let mut all = vec![LARGEST_GATES];
    for section in 0..3 {
        for count in [0, 1, LARGEST_GATES[section] - 1, LARGEST_GATES[section]] {
            for mut others in [[2, 2, 3], LARGEST_GATES] {
                others[section] = count;
                all.push(others);
            }
        }
    }
    all
}

/// One random table, a run of it, and others made from it.
pub fn tables_of_seed(seed: u64, tallies: &mut Tallies) -> Result<(), Difference> {
    let mut random = Random::new(seed);
    let counts = gate_counts(&mut random);
    let table = gate_table(&mut random, counts);
    let bytes = table.bytes();
    tallies.calls(&table, &bytes, &mut random)?;
    let cycles = match random.below(100) {
        // Long runs of small tables, so that the time goes into tables as well.
        0 if bytes.len() < 400 => 2 * MANY_CYCLES,
        _ => random.between(1, 12),
    };
    tallies.run(&table, cycles, &mut random)?;
    for _ in 0..6 {
        let broken = spoil_gate_directory(&table, &mut random);
        tallies.calls(&table, &broken, &mut random)?;
        let mut spoiled = table.clone();
        for _ in 0..*random.pick(&[1, 1, 2, 4]) {
            spoil_gate_record(&mut spoiled, &mut random);
        }
        tallies.calls(&table, &spoiled.bytes(), &mut random)?;
    }
    tallies.calls(&table, &damaged(bytes.clone(), &mut random), &mut random)?;
    tallies.calls(&table, &resized(bytes, &mut random), &mut random)
}

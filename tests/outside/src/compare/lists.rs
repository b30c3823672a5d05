//! Lists of calls, good and refused, made by both engines; after every call the answers and
//! all bytes of the areas and their guards are compared.

use super::areas::{Areas, Lengths};
use super::calls::Call;
use super::chance::{any_call, any_lengths, disturb};
use super::difference::Difference;
use super::engine::{LIBRARY, REFERENCE};
use super::journal_chance::{any_journal_call, any_journal_length, any_room, disturb_journal};
use super::reasons::{note_call, Lent};
use super::tally::Tally;
use crate::designs;
use crate::generate::random::{Random, EDGES};
use crate::generate::{any_design, faults, Size};
use crate::reference::image::{Image, LAST_OPERATION, PORT};
use crate::reference::refusal;
use crate::table::Table;

const CALLS: usize = 60;

/// The tallies of the five calls.
#[derive(Default)]
pub struct Tallies {
    reset: Tally,
    write_port: Tally,
    run: Tally,
    run_journalled: Tally,
    step_back: Tally,
}

impl Tallies {
    pub fn print(&self) {
        self.reset.print("reset");
        self.write_port.print("port write");
        self.run.print("run");
        self.run_journalled.print("journalled run");
        self.step_back.print("step back");
    }

    /// What each call should have met and did not: every image refusal and its own ones.
    pub fn missing(&self) -> Vec<String> {
        let mut missing = Vec::new();
        for (name, tally, never) in [
            (
                "reset",
                &self.reset,
                &[13, 15, 17, 18, 20, 21, 22, 23, 24][..],
            ),
            (
                "port write",
                &self.write_port,
                &[15, 18, 20, 21, 22, 23, 24],
            ),
            ("run", &self.run, &[13, 17, 18, 20, 21, 22, 23, 24]),
            (
                "journalled run",
                &self.run_journalled,
                &[13, 17, 18, 20, 22, 23, 24],
            ),
            ("step back", &self.step_back, &[13, 15, 17, 18, 20, 23, 24]),
        ] {
            for what in tally.missing(never) {
                missing.push(format!("{name}: {what}"));
            }
        }
        missing
    }

    fn of(&mut self, call: Call) -> &mut Tally {
        match call {
            Call::Reset => &mut self.reset,
            Call::WritePort { .. } => &mut self.write_port,
            Call::Run { .. } => &mut self.run,
            Call::RunJournalled { .. } => &mut self.run_journalled,
            Call::StepBack { .. } => &mut self.step_back,
        }
    }
}

/// Both engines with their own copies of the areas.
struct Pair<'a> {
    image: &'a [u8],
    library: Areas,
    reference: Areas,
    tallies: &'a mut Tallies,
}

impl<'a> Pair<'a> {
    /// Both with the same areas.
    fn new(image: &'a [u8], areas: Areas, tallies: &'a mut Tallies) -> Self {
        Pair {
            image,
            library: areas.clone(),
            reference: areas,
            tallies,
        }
    }

    /// The areas lent with the lengths that they should have.
    fn make_whole(&mut self, call: Call) -> Result<(), Difference> {
        self.make(call, self.library.lengths())
    }

    fn make(&mut self, call: Call, lengths: Lengths) -> Result<(), Difference> {
        let image = self.image.to_vec().into_boxed_slice();
        let ports = self.port_values();
        let mut before = self.reference.clone();
        let given = LIBRARY.make(call, &image, self.library.lend(lengths));
        let expected = REFERENCE.make(call, self.image, self.reference.lend(lengths));
        let what = format!("{call:?} with {lengths:?}");
        if given != expected {
            return Err(Difference::new(self.image, &what, given, expected));
        }
        if self.library != self.reference || *image != *self.image {
            let what = format!("{what}: other bytes in an area, a guard or the image");
            return Err(Difference::new(self.image, &what, given, expected));
        }
        let runs = call.of_one_cycle().is_some();
        if runs && given.number == 0 && self.port_values() != ports {
            let what = format!("{what}: a run that changed a port, by both");
            return Err(Difference::new(self.image, &what, given, expected));
        }
        let tally = self.tallies.of(call);
        tally.add(expected, self.image.len());
        let lent = Lent {
            image: self.image,
            registers: before.registers.lend(lengths.registers),
            targets: before.targets.lend(lengths.targets),
            journal: before.journal.lend(lengths.journal),
        };
        note_call(tally, call, &lent, expected);
        Ok(())
    }

    /// The ports in the library's areas, as far as the image has registers.
    fn port_values(&mut self) -> Vec<u32> {
        let Ok(image) = Image::open(self.image) else {
            return Vec::new();
        };
        let values = image.registers().zip(self.library.values());
        values
            .filter(|(register, _)| register.kind == PORT)
            .map(|(_, value)| value)
            .collect()
    }

    /// The host writes the areas between two calls.
    fn change(&mut self, random: &mut Random, change: impl Fn(&mut Areas, &mut Random)) {
        change(&mut self.library, &mut random.clone());
        change(&mut self.reference, random);
    }
}

/// One random design, or a spoiled one, and a list of calls on it.
pub fn lists_of_seed(seed: u64, tallies: &mut Tallies) -> Result<(), Difference> {
    let mut random = Random::new(seed);
    let size = Size::random(&mut random);
    let table = any_design(&mut random, size);
    let mut image = table.image();
    if random.percent(20) {
        image = match *random.pick(refusal::IMAGE) {
            1 => faults::spoil_directory(&table, &mut random),
            number => faults::spoiled(&table, &[number], &mut random).image(),
        };
    }
    let room = any_room(&table, &mut random);
    let mut pair = Pair::new(&image, Areas::new(&table, room, &mut random), tallies);
    // Before the first reset registers and targets are any bytes.
    if random.percent(80) {
        pair.make_whole(Call::Reset)?;
    }
    // So is a journal that is not made empty.
    if random.percent(90) {
        pair.change(&mut random, |areas, _| areas.set_count(0));
    }
    for _ in 0..CALLS {
        one_call(&mut pair, &table, &mut random)?;
    }
    Ok(())
}

/// One call, with what the host writes before it.
fn one_call(pair: &mut Pair, table: &Table, random: &mut Random) -> Result<(), Difference> {
    pair.change(random, |areas, random| disturb(areas, table, random));
    pair.change(random, |areas, random| {
        disturb_journal(areas, table, random)
    });
    let call = if random.percent(40) {
        any_journal_call(&mut pair.library, random)
    } else {
        any_call(table, random)
    };
    let mut lengths = any_lengths(&pair.library, random);
    lengths.journal = any_journal_length(&mut pair.library, call, random);
    pair.make(call, lengths)
}

/// Every operation on every two edges, with its value stored whole: in a random body it may be lost.
pub fn operations(tallies: &mut Tallies) -> Result<(), Difference> {
    let edges = || EDGES.into_iter().chain([0]).map(i32::cast_unsigned);
    for kind in 2..=LAST_OPERATION {
        let table = designs::one_operation(kind);
        let image = table.image();
        let areas = Areas::new(&table, 0, &mut Random::new(0));
        let mut pair = Pair::new(&image, areas, tallies);
        let mut make = |call| pair.make_whole(call);
        make(Call::Reset)?;
        for (left, right) in edges().flat_map(|left| edges().map(move |right| (left, right))) {
            for (register, value) in [(1, left), (2, right)] {
                make(Call::WritePort { register, value })?;
            }
            make(Call::Run { cycles: 1 })?;
        }
    }
    Ok(())
}

/// The longest run on the worked designs.
pub fn longest_runs(tallies: &mut Tallies) -> Result<(), Difference> {
    for table in designs::worked() {
        let image = table.image();
        let areas = Areas::new(&table, 0, &mut Random::new(0));
        let mut pair = Pair::new(&image, areas, tallies);
        pair.make_whole(Call::Reset)?;
        for cycles in [0, 1, 999_999, 1_000_000, 1_000_001, u32::MAX] {
            pair.make_whole(Call::Run { cycles })?;
        }
    }
    Ok(())
}

/// The longest journalled runs, and steps back of more cycles than a run has.
pub fn longest_journals(tallies: &mut Tallies) -> Result<(), Difference> {
    for table in [designs::smallest(), designs::lease()] {
        let image = table.image();
        let areas = Areas::new(&table, 1_000_003, &mut Random::new(0));
        let mut pair = Pair::new(&image, areas, tallies);
        pair.make_whole(Call::Reset)?;
        pair.change(&mut Random::new(0), |areas, _| areas.set_count(0));
        for cycles in [1, 1_000_001, 1_000_000, 3, 2] {
            pair.make_whole(Call::RunJournalled { cycles })?;
        }
        for cycles in [1_000_004, 1, 1_000_001, 2, 1] {
            pair.make_whole(Call::StepBack { cycles })?;
        }
    }
    Ok(())
}

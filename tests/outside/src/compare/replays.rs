//! Random traces replayed by an engine and by the reference: the answers and all bytes of the areas, their
//! guards, the image and the trace are compared. What request E10 says of a replay that is accepted is also
//! asked of the engine itself: port writes and single cycles, and the trace divided at a cycle.

use super::areas::{Areas, Lengths};
use super::calls::Call;
use super::chance::{any_lengths, disturb};
use super::difference::Difference;
use super::engine::{Engine, REFERENCE};
use super::replay_chance::any_replay;
use super::replay_reasons::{note_replay, Lent};
use super::tally::Tally;
use crate::answer::Answer;
use crate::designs;
use crate::generate::random::Random;
use crate::generate::{any_design, faults, Size};
use crate::reference::image::PORT;
use crate::reference::limits::MOST_CYCLES;
use crate::reference::refusal;
use crate::table::Table;
use crate::trace::{divided, Record};

const REPLAYS: usize = 20;

/// Spoiled images, each for one replay.
const SPOILED: usize = 5;

/// So many cycles and records at most are replayed by hand: each call judges the image anew.
const BY_HAND: usize = 30;

/// So many records of a trace are shown with a difference.
const SHOWN: usize = 40;

/// The numbers that a replay never gives: no label is raised, nothing is pruned, and there is no journal.
pub const NEVER: &[u32] = &[18, 20, 21, 22, 24];

#[derive(Default)]
pub struct Tallies(Tally);

impl Tallies {
    pub fn print(&self) {
        self.0.print("replay");
    }

    pub fn missing(&self) -> Vec<String> {
        self.missing_but(NEVER)
    }

    /// Without these numbers.
    pub fn missing_but(&self, never: &[u32]) -> Vec<String> {
        let missing = self.0.missing(never).into_iter();
        missing.map(|what| format!("replay: {what}")).collect()
    }

    fn note_divided(&mut self, replay: &Replay, cut: u32) {
        let (before, behind) = divided(replay.trace, cut);
        let both = !before.is_empty() && !behind.is_empty();
        self.0.note("divided, records in both parts", both);
        let at_record = behind.first().is_some_and(|record| record.cycle == 0);
        self.0
            .note("divided before a record's cycle", both && at_record);
        let some = replay.cycles > 0 && !replay.trace.is_empty();
        self.0.note("divided at 0", some && cut == 0);
        self.0.note("divided at n", some && cut == replay.cycles);
    }
}

/// A replay to be made, and what it is made on.
struct Replay<'a> {
    engine: &'a Engine,
    image: &'a [u8],
    trace: &'a [Record],
    cycles: u32,
}

impl Replay<'_> {
    /// By the engine and by the reference, which leave the same areas.
    fn compare(
        &self,
        areas: &mut Areas,
        lengths: Lengths,
        tallies: &mut Tallies,
    ) -> Result<Answer, Difference> {
        let image = self.image.to_vec().into_boxed_slice();
        let trace = guarded(self.trace);
        let mut before = areas.clone();
        let mut given_areas = areas.clone();
        let given = replay(
            self.engine,
            &image,
            &mut given_areas,
            lengths,
            &trace[1..=self.trace.len()],
            self.cycles,
        );
        let expected = replay(
            &REFERENCE,
            self.image,
            areas,
            lengths,
            self.trace,
            self.cycles,
        );
        if given != expected {
            return Err(self.difference("other answers", given, expected));
        }
        if given_areas != *areas || *image != *self.image || trace != guarded(self.trace) {
            let why = "other bytes in an area, a guard, the image or the trace";
            return Err(self.difference(why, given, expected));
        }
        tallies.0.add(expected, self.image.len());
        let lent = Lent {
            image: self.image,
            registers: before.registers.lend(lengths.registers),
            targets: before.targets.lend(lengths.targets),
            trace: self.trace,
            cycles: self.cycles,
        };
        note_replay(&mut tallies.0, &lent, expected);
        Ok(expected)
    }

    /// Port writes and single cycles, by the engine, leave the same areas.
    fn by_hand(&self, mut areas: Areas, expected: &Areas) -> Result<(), Difference> {
        let mut make = |call| self.engine.make(call, self.image, areas.whole());
        let mut records = self.trace.iter().peekable();
        for cycle in 0..self.cycles {
            while let Some(record) = records.next_if(|record| record.cycle == cycle) {
                let &Record {
                    register, value, ..
                } = record;
                let written = make(Call::WritePort { register, value });
                if written != Answer::accepted(0) {
                    return Err(self.difference("a record is no port write", written, ""));
                }
            }
            make(Call::Run { cycles: 1 });
        }
        if areas != *expected {
            let why = "other areas than port writes and single cycles leave";
            return Err(self.difference(why, "", ""));
        }
        Ok(())
    }

    /// The trace divided at a cycle, by the engine, leaves the same areas and has as many superseded.
    fn divided_at(
        &self,
        cut: u32,
        mut areas: Areas,
        answer: Answer,
        expected: &Areas,
    ) -> Result<(), Difference> {
        let lengths = areas.lengths();
        let (before, behind) = divided(self.trace, cut);
        let mut make = |trace: &[Record], cycles| {
            replay(self.engine, self.image, &mut areas, lengths, trace, cycles)
        };
        let one = make(&before, cut);
        let other = make(&behind, self.cycles - cut);
        let whole = Answer::accepted(one.count + other.count);
        let accepted = one.number == 0 && other.number == 0;
        if !accepted || whole != answer || areas != *expected {
            let why = format!("divided at {cut}: {one}, {other}");
            return Err(self.difference(&why, whole, answer));
        }
        Ok(())
    }

    fn difference(
        &self,
        why: &str,
        given: impl std::fmt::Display,
        expected: impl std::fmt::Display,
    ) -> Difference {
        let shown = &self.trace[..self.trace.len().min(SHOWN)];
        let shown: Vec<String> = shown
            .iter()
            .map(|record| format!("{} {} {}", record.cycle, record.register, record.value))
            .collect();
        let what = format!(
            "replay of {} records in {} cycles ({}): {why}",
            self.trace.len(),
            self.cycles,
            shown.join(", ")
        );
        Difference::new(self.image, &what, given, expected)
    }
}

fn replay(
    engine: &Engine,
    image: &[u8],
    areas: &mut Areas,
    lengths: Lengths,
    trace: &[Record],
    cycles: u32,
) -> Answer {
    let lent = areas.lend(lengths);
    (engine.replay)(image, lent.registers, lent.targets, trace, cycles)
}

/// The trace with its first record before it and its last behind it, which would be applied and counted if
/// they were read. So it also begins at an address that is a multiple of 4 and not of 8.
fn guarded(trace: &[Record]) -> Vec<Record> {
    let none = Record::new(0, 0, 0);
    let first = trace.first().unwrap_or(&none);
    let last = trace.last().unwrap_or(&none);
    [&[*first], trace, &[*last]].concat()
}

/// One random design and replays on it, or some replays on the design spoiled.
pub fn replays_of_seed(
    engine: &Engine,
    seed: u64,
    tallies: &mut Tallies,
) -> Result<(), Difference> {
    let mut random = Random::new(seed);
    let size = Size::random(&mut random);
    let table = any_design(&mut random, size);
    let mut areas = Areas::new(&table, 0, &mut random);
    if random.percent(25) {
        for _ in 0..SPOILED {
            let image = spoiled(&table, &mut random);
            one_replay(engine, &table, &image, &mut areas, &mut random, tallies)?;
        }
        return Ok(());
    }
    let image = table.image();
    for _ in 0..REPLAYS {
        one_replay(engine, &table, &image, &mut areas, &mut random, tallies)?;
    }
    Ok(())
}

fn spoiled(table: &Table, random: &mut Random) -> Vec<u8> {
    match *random.pick(refusal::IMAGE) {
        1 => faults::spoil_directory(table, random),
        number => faults::spoiled(table, &[number], random).image(),
    }
}

/// One replay, with what the host writes before it.
fn one_replay(
    engine: &Engine,
    table: &Table,
    image: &[u8],
    areas: &mut Areas,
    random: &mut Random,
    tallies: &mut Tallies,
) -> Result<(), Difference> {
    // Without it the areas are any bytes, or what the last replay has left.
    if random.percent(70) {
        REFERENCE.make(Call::Reset, image, areas.whole());
    }
    disturb(areas, table, random);
    let (trace, cycles) = any_replay(table, random);
    let replay = Replay {
        engine,
        image,
        trace: &trace,
        cycles,
    };
    let before = areas.clone();
    let lengths = any_lengths(areas, random);
    let answer = replay.compare(areas, lengths, tallies)?;
    if answer.number != 0 {
        return Ok(());
    }
    let by_hand = trace.len() + cycles as usize <= BY_HAND && random.percent(30);
    if by_hand {
        replay.by_hand(before.clone(), areas)?;
    }
    tallies.0.note("by hand", by_hand && !trace.is_empty());
    let cut = random.index(cycles as usize + 1) as u32;
    tallies.note_divided(&replay, cut);
    replay.divided_at(cut, before, answer, areas)
}

/// The longest replays: a record before every 100th cycle on the worked designs, then long traces.
pub fn longest_replays(engine: &Engine, tallies: &mut Tallies) -> Result<(), Difference> {
    for table in designs::worked() {
        let every = readings(&table, (0..MOST_CYCLES).step_by(100));
        on_reset(engine, &table, &every, MOST_CYCLES, tallies)?;
    }
    let table = designs::valve();
    let dense = readings(&table, 0..MOST_CYCLES);
    let thrice = readings(&table, (0..MOST_CYCLES).flat_map(|cycle| [cycle; 3]));
    let at_once = readings(&table, (0..MOST_CYCLES).map(|_| 0));
    for (trace, cycles) in [
        (&dense, MOST_CYCLES),
        (&dense, MOST_CYCLES - 1),
        (&dense, MOST_CYCLES + 1),
        (&thrice, MOST_CYCLES),
        (&at_once, 1),
        (&at_once, 0),
    ] {
        on_reset(engine, &table, trace, cycles, tallies)?;
    }
    // Places above 16 bits: a fall, the number of cycles, no port, a value too large.
    for (place, record) in [
        (70_000, Record::new(69_998, 2, 0)),
        (999_999, Record::new(MOST_CYCLES, 2, 0)),
        (65_536, Record::new(65_536, 5, 0)),
        (999_999, Record::new(999_999, 3, 2)),
    ] {
        let mut trace = dense.clone();
        trace[place] = record;
        on_reset(engine, &table, &trace, MOST_CYCLES, tallies)?;
    }
    Ok(())
}

/// One record for each of these cycles, for any port and with any value that fits; none without ports.
fn readings(table: &Table, cycles: impl Iterator<Item = u32>) -> Vec<Record> {
    let ports = table.of_kind(PORT);
    if ports.is_empty() {
        return Vec::new();
    }
    let mut random = Random::new(0);
    let record = |cycle| {
        let port = *random.pick(&ports);
        let width = table.registers[usize::from(port)].width;
        Record::new(cycle, port.into(), random.fitting(width))
    };
    cycles.map(record).collect()
}

fn on_reset(
    engine: &Engine,
    table: &Table,
    trace: &[Record],
    cycles: u32,
    tallies: &mut Tallies,
) -> Result<(), Difference> {
    let image = table.image();
    let mut areas = Areas::new(table, 0, &mut Random::new(0));
    REFERENCE.make(Call::Reset, &image, areas.whole());
    let replay = Replay {
        engine,
        image: &image,
        trace,
        cycles,
    };
    let before = areas.clone();
    let lengths = areas.lengths();
    let answer = replay.compare(&mut areas, lengths, tallies)?;
    if answer.number != 0 {
        return Ok(());
    }
    replay.divided_at(cycles / 3, before, answer, &areas)
}

/// The empty image as a C host may lend it, no areas and no trace.
#[cfg(feature = "library")]
pub fn about_null() -> Result<(), Difference> {
    let given = crate::library::replay_null();
    let expected = crate::reference::replay(&[], &mut [], &mut [], &[], 0);
    if given == expected {
        return Ok(());
    }
    Err(Difference::new(&[], "replay of null", given, expected))
}

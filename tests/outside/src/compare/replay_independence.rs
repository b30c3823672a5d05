//! Demand 3 of replays tried on an engine, request E10: from reset and for as many cycles, traces that are equal
//! in the records at or below a level have equal views there. How many records were superseded is not part of
//! the view.

use super::areas::Areas;
use super::calls::Call;
use super::difference::Difference;
use super::engine::Engine;
use super::independence::{any_design, top};
use super::view::{Seen, Stage};
use crate::answer::Answer;
use crate::generate::random::Random;
use crate::reference::image::{Image, PORT};
use crate::reference::limits::WIDEST;
use crate::reference::machine::Machine;
use crate::table::Table;
use crate::trace::{divided, Record};

const PAIRS: usize = 4;

/// What was tried, and that the test could have failed.
#[derive(Default)]
pub struct ReplayFindings {
    pub pairs: u64,
    pub cycles: u64,
    /// Pairs after which some register not at or below the level differs.
    pub hidden_differences: u64,
    /// Pairs whose traces have other records superseded, as the answers count them.
    pub other_counts: u64,
    /// Pairs with a record at or below the level that another supersedes, one out of sight between them.
    pub between: u64,
    /// Pairs of which one has a cycle with records and the other none in it.
    pub other_cycles: u64,
    /// Pairs with one record at or below the level made to differ, and how many were seen to.
    pub altered: u64,
    pub altered_seen: u64,
    /// Pairs looked at from the top, where all is seen, and how many differed there.
    pub from_top: u64,
    pub from_top_seen: u64,
    /// Traces refused for one record out of sight, and how many were seen to be: why neither may be refused.
    pub refused: u64,
    pub refused_seen: u64,
}

impl ReplayFindings {
    pub fn print(&self) {
        println!(
            "{} pairs of replays, {} cycles: all views equal",
            self.pairs, self.cycles
        );
        println!(
            "  after {} of them registers out of sight differ, {} have other records superseded, {} one of \
             them across a record out of sight, {} records in other cycles",
            self.hidden_differences, self.other_counts, self.between, self.other_cycles
        );
        println!(
            "  {} of {} with a record in sight made to differ were seen to differ, {} of {} from the top, \
             {} of {} where one is refused",
            self.altered_seen,
            self.altered,
            self.from_top_seen,
            self.from_top,
            self.refused_seen,
            self.refused
        );
    }

    /// The test would have found a difference.
    pub fn able(&self) -> bool {
        ![
            self.hidden_differences,
            self.other_counts,
            self.between,
            self.other_cycles,
            self.altered_seen,
            self.from_top_seen,
            self.refused_seen,
        ]
        .contains(&0)
    }
}

pub fn replay_pairs_of_seed(
    engine: &Engine,
    seed: u64,
    findings: &mut ReplayFindings,
) -> Result<(), Difference> {
    let mut random = Random::new(seed);
    let table = any_design(&mut random);
    let image = table.image();
    if (engine.check)(&image).number != 0 {
        return Ok(());
    }
    let sections = Image::open(&image).expect("these faults leave the sections alone");
    let stage = Stage {
        engine,
        table: &table,
        image: &image,
        machine: &Machine::new(&sections),
    };
    for _ in 0..PAIRS {
        try_pair(&stage, &mut random, findings)?;
    }
    Ok(())
}

fn try_pair(
    stage: &Stage,
    random: &mut Random,
    findings: &mut ReplayFindings,
) -> Result<(), Difference> {
    let table = stage.table;
    // The lowest level often: from there most is out of sight.
    let any = random.below(table.rows.len()) as u8;
    let level = *random.pick(&[0, any]);
    let cycles = random.between(0, 12) as u32;
    let low = low_trace(table, level, cycles, random);
    let traces = [(); 2].map(|_| dressed(&low, table, level, cycles, random));
    let mut one = watch(stage, level, &traces[0], cycles, random)?;
    let mut other = watch(stage, level, &traces[1], cycles, random)?;
    findings.pairs += 1;
    findings.cycles += u64::from(cycles);
    if one.seen != other.seen {
        let what = format!("replays of {cycles} cycles at level {level}: {traces:?}");
        return Err(Difference::new(
            stage.image,
            &what,
            "unequal views",
            "equal views",
        ));
    }
    findings.hidden_differences += u64::from(one.areas.values() != other.areas.values());
    findings.other_counts += u64::from(one.answer.count != other.answer.count);
    let between = |trace: &[Record]| superseded_across(trace, table, level);
    findings.between += u64::from(traces.iter().any(|trace| between(trace)));
    findings.other_cycles += u64::from(cycles_of(&traces[0]) != cycles_of(&traces[1]));

    if let Some(altered) = altered(&traces[1], table, level, random) {
        let altered = watch(stage, level, &altered, cycles, random)?;
        findings.altered += 1;
        findings.altered_seen += u64::from(altered.seen != one.seen);
    }
    let top = top(table);
    let from_top = [0, 1].map(|number| watch(stage, top, &traces[number], cycles, random));
    let [first, second] = from_top;
    findings.from_top += 1;
    findings.from_top_seen += u64::from(first?.seen != second?.seen);
    try_refused(
        stage, level, &traces[1], cycles, &one.seen, random, findings,
    )
}

/// One record out of sight more, for which the trace is refused: nothing is run, which may be seen.
fn try_refused(
    stage: &Stage,
    level: u8,
    trace: &[Record],
    cycles: u32,
    seen: &Seen,
    random: &mut Random,
    findings: &mut ReplayFindings,
) -> Result<(), Difference> {
    let refused = refused(trace, stage.table, level, cycles, random);
    let mut areas = reset(stage, random);
    let before = areas.clone();
    let answer = replay(stage, &refused, cycles, &mut areas);
    if answer.number == 0 || areas != before {
        let what = format!("replay of {cycles} cycles with a bad record: {refused:?}");
        return Err(Difference::new(stage.image, &what, answer, "refused"));
    }
    findings.refused += 1;
    findings.refused_seen += u64::from(stage.low_values(level, &mut areas) != seen.last);
    Ok(())
}

/// A replay from reset: what is seen, the areas after it and its answer.
pub struct Watched {
    pub seen: Seen,
    pub areas: Areas,
    pub answer: Answer,
}

/// Replays the first cycle from reset, the first two, and so on up to all.
pub fn watch(
    stage: &Stage,
    level: u8,
    trace: &[Record],
    cycles: u32,
    random: &mut Random,
) -> Result<Watched, Difference> {
    let start = reset(stage, random);
    let mut areas = start.clone();
    let mut answer = replay(stage, &[], 0, &mut areas);
    let mut seen = Vec::new();
    for cycle in 0..cycles {
        // The walk of a cycle begins with its records applied.
        for record in trace.iter().filter(|record| record.cycle == cycle) {
            let &Record {
                register, value, ..
            } = record;
            stage.make(Call::WritePort { register, value }, &mut areas);
        }
        let walk = stage.low_walk(level, &mut areas);
        let (before, _) = divided(trace, cycle + 1);
        areas = start.clone();
        answer = replay(stage, &before, cycle + 1, &mut areas);
        if answer.number != 0 {
            let what = format!("replay of {} cycles: {before:?}", cycle + 1);
            return Err(Difference::new(stage.image, &what, answer, "accepted"));
        }
        seen.push((stage.low_values(level, &mut areas), walk));
    }
    let seen = Seen {
        cycles: seen,
        last: stage.low_values(level, &mut areas),
    };
    Ok(Watched {
        seen,
        areas,
        answer,
    })
}

fn replay(stage: &Stage, trace: &[Record], cycles: u32, areas: &mut Areas) -> Answer {
    let lent = areas.whole();
    (stage.engine.replay)(stage.image, lent.registers, lent.targets, trace, cycles)
}

fn reset(stage: &Stage, random: &mut Random) -> Areas {
    let mut areas = Areas::new(stage.table, 0, random);
    stage.make(Call::Reset, &mut areas);
    areas
}

/// The ports whose labels are wanted.
fn ports(table: &Table, wanted: impl Fn(u8) -> bool) -> Vec<u8> {
    let mut ports = table.of_kind(PORT);
    ports.retain(|&port| wanted(table.registers[usize::from(port)].label));
    ports
}

fn any_record(table: &Table, ports: &[u8], cycles: u32, random: &mut Random) -> Record {
    let port = *random.pick(ports);
    let value = random.fitting(table.registers[usize::from(port)].width);
    Record::new(random.below(cycles as usize) as u32, port.into(), value)
}

/// The records at or below the level, in their order.
pub fn low_trace(table: &Table, level: u8, cycles: u32, random: &mut Random) -> Vec<Record> {
    let ports = ports(table, |label| table.flows(label, level));
    any_trace(table, &ports, cycles, random)
}

fn any_trace(table: &Table, ports: &[u8], cycles: u32, random: &mut Random) -> Vec<Record> {
    if ports.is_empty() || cycles == 0 {
        return Vec::new();
    }
    let count = random.between(0, 10);
    let records = (0..count).map(|_| any_record(table, ports, cycles, random));
    let mut trace: Vec<Record> = records.collect();
    trace.sort_by_key(|record| record.cycle);
    trace
}

/// The same records at or below the level, and any others between them.
pub fn dressed(
    low: &[Record],
    table: &Table,
    level: u8,
    cycles: u32,
    random: &mut Random,
) -> Vec<Record> {
    let ports = ports(table, |label| !table.flows(label, level));
    let mut trace = low.to_vec();
    for record in any_trace(table, &ports, cycles, random) {
        insert(&mut trace, record, random);
    }
    trace
}

/// Anywhere among the records of its cycle.
fn insert(trace: &mut Vec<Record>, record: Record, random: &mut Random) {
    let first = trace.partition_point(|other| other.cycle < record.cycle);
    let end = trace.partition_point(|other| other.cycle <= record.cycle);
    trace.insert(random.between(first, end), record);
}

/// One record at or below the level has another value, if there is one.
fn altered(trace: &[Record], table: &Table, level: u8, random: &mut Random) -> Option<Vec<Record>> {
    let places = 0..trace.len();
    let low = |&place: &usize| is_low(&trace[place], table, level);
    let places: Vec<usize> = places.filter(low).collect();
    if places.is_empty() {
        return None;
    }
    let mut trace = trace.to_vec();
    // The lowest bit, which every width has.
    trace[*random.pick(&places)].value ^= 1;
    Some(trace)
}

/// A record out of sight more, by 23, 13 or 17.
fn refused(
    trace: &[Record],
    table: &Table,
    level: u8,
    cycles: u32,
    random: &mut Random,
) -> Vec<Record> {
    let mut high = ports(table, |label| !table.flows(label, level));
    high.retain(|&port| table.registers[usize::from(port)].width < WIDEST);
    let mut trace = trace.to_vec();
    let unknown = table.registers.len() as u32;
    if cycles == 0 || random.percent(30) {
        trace.push(Record::new(cycles, unknown, 0));
        return trace;
    }
    let mut record = Record::new(random.below(cycles as usize) as u32, unknown, 0);
    if !high.is_empty() && random.percent(50) {
        record = any_record(table, &high, cycles, random);
        let width = table.registers[record.register as usize].width;
        record.value = random.too_large(width).expect("a narrow port");
    }
    insert(&mut trace, record, random);
    trace
}

fn is_low(record: &Record, table: &Table, level: u8) -> bool {
    table.flows(table.registers[record.register as usize].label, level)
}

/// Some record in sight is superseded by another, with one out of sight between them.
fn superseded_across(trace: &[Record], table: &Table, level: u8) -> bool {
    let low = |record: &Record| is_low(record, table, level);
    trace.windows(3).any(|three| {
        let [one, hidden, other] = [three[0], three[1], three[2]];
        let same = (one.cycle, one.register) == (other.cycle, other.register);
        same && low(&one) && !low(&hidden)
    })
}

/// The cycles that have records.
fn cycles_of(trace: &[Record]) -> Vec<u32> {
    let mut cycles: Vec<u32> = trace.iter().map(|record| record.cycle).collect();
    cycles.dedup();
    cycles
}

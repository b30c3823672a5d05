//! Demand 3 across two designs tried on an engine, request E14: two accepted designs with the same labels,
//! registers and states, and the same bodies except in states whose fixed label is not at or below a level, give
//! that level equal views of matching lists, and of replays.

use super::calls::Call;
use super::difference::Difference;
use super::engine::Engine;
use super::independence::{any_design, start, top};
use super::matching::{altered, common_list, dressed};
use super::replay_independence::{self as replays, Watched};
use super::view::{Seen, Stage};
use crate::generate::edit::{edited, tampered};
use crate::generate::random::Random;
use crate::reference::image::Image;
use crate::reference::limits::PARAMETER_LABEL;
use crate::reference::machine::Machine;
use crate::table::Table;

/// Edited designs of a seed, and pairs of lists on each; with them comes a pair of replays.
const EDITS: usize = 2;
const LISTS: usize = 2;

/// With fewer pairs of lists, or of replays, nothing was tried.
const LEAST: u64 = 100;

/// What was tried, and that the test could have failed.
#[derive(Default)]
pub struct EditFindings {
    /// Changes of a body that the check refused.
    pub refused: u64,
    /// Pairs of lists, and of replays, on two designs; where nothing may be edited, these differ in node numbers.
    pub pairs: u64,
    pub replays: u64,
    pub cycles: u64,
    /// How often an edited body ran, in either design; in how many pairs of lists and of replays; and pairs in
    /// which one did whose label is not above the level either.
    pub ran: u64,
    pub ran_in_lists: u64,
    pub ran_in_replays: u64,
    pub ran_beside: u64,
    /// Of the pairs of lists in which one ran, those on designs with parameters, with a journalled run, and with a
    /// step back.
    pub parameters: u64,
    pub journalled: u64,
    pub going_back: u64,
    /// Pairs after which some register not at or below the level differs, and that differ seen from the top.
    pub hidden_differences: u64,
    pub from_top: u64,
    /// Lists made not to match, and pairs of designs that break the premise.
    pub altered: Broken,
    pub in_sight: Broken,
    pub reset: Broken,
    pub bound: Broken,
}

/// How many were tried, and how many of them seen to differ.
#[derive(Default)]
pub struct Broken {
    pub tried: u64,
    pub seen: u64,
}

impl Broken {
    fn note(&mut self, differs: bool) {
        self.tried += 1;
        self.seen += u64::from(differs);
    }
}

impl EditFindings {
    pub fn print(&self) {
        println!(
            "{} pairs of lists and {} of replays on a design and an edited one, {} cycles: all views equal",
            self.pairs, self.replays, self.cycles
        );
        println!(
            "  edited bodies ran {} times, in {} pairs of lists and {} of replays, in {} of them beside the level; \
             {} changes of a body were refused",
            self.ran, self.ran_in_lists, self.ran_in_replays, self.ran_beside, self.refused
        );
        println!(
            "  {} of these pairs of lists have parameters, {} journal, {} go back",
            self.parameters, self.journalled, self.going_back
        );
        println!(
            "  after {} of the pairs registers out of sight differ, {} differ from the top",
            self.hidden_differences, self.from_top
        );
        println!(
            "  {} of {} lists made not to match were seen to differ; {} of {} edits of a body in sight, {} of {} \
             of a reset value, {} of {} of a body with a parameter's label",
            self.altered.seen,
            self.altered.tried,
            self.in_sight.seen,
            self.in_sight.tried,
            self.reset.seen,
            self.reset.tried,
            self.bound.seen,
            self.bound.tried
        );
    }

    /// The test would have found a difference.
    pub fn able(&self) -> bool {
        self.pairs >= LEAST && self.replays >= LEAST && self.met()
    }

    /// Everything was met at least once.
    pub fn met(&self) -> bool {
        let met = [
            self.refused,
            self.ran_in_lists,
            self.ran_in_replays,
            self.ran_beside,
            self.parameters,
            self.journalled,
            self.going_back,
            self.hidden_differences,
            self.from_top,
            self.altered.seen,
            self.in_sight.seen,
            self.reset.seen,
            self.bound.seen,
        ];
        !met.contains(&0)
    }
}

/// A design with what a stage is lent.
struct Design {
    table: Table,
    image: Vec<u8>,
    machine: Machine,
}

impl Design {
    /// If the engine accepts it.
    fn accepted(table: Table, engine: &Engine) -> Option<Design> {
        let image = table.image();
        if (engine.check)(&image).number != 0 {
            return None;
        }
        let machine = Machine::new(&Image::open(&image).expect("the check has opened it"));
        Some(Design {
            table,
            image,
            machine,
        })
    }

    fn stage<'a>(&'a self, engine: &'a Engine) -> Stage<'a> {
        Stage {
            engine,
            table: &self.table,
            image: &self.image,
            machine: &self.machine,
        }
    }
}

/// A design, an edited one, and the states in which they have other bodies.
struct Pair<'a> {
    stages: [Stage<'a>; 2],
    level: u8,
    edited: Vec<usize>,
}

pub fn edit_pairs_of_seed(
    engine: &Engine,
    seed: u64,
    findings: &mut EditFindings,
) -> Result<(), Difference> {
    let mut random = Random::new(seed);
    let table = any_design(&mut random);
    let Some(design) = Design::accepted(table, engine) else {
        return Ok(());
    };
    let table = &design.table;
    for _ in 0..EDITS {
        let level = any_level(table, &mut random);
        let mut edited = some(&editable(table, level), &mut random);
        let other = any_edit(engine, table, &edited, &mut random, &mut findings.refused);
        assert!(table.is_edited_out_of_sight(&other, level));
        // A new body may be the old one.
        edited.retain(|&state| table.body(state) != other.body(state));
        let other = Design::accepted(other, engine).expect("an edit keeps every rule");
        let pair = Pair {
            stages: [design.stage(engine), other.stage(engine)],
            level,
            edited,
        };
        for _ in 0..LISTS {
            try_lists(&pair, &mut random, findings)?;
        }
        try_replays(&pair, &mut random, findings)?;
    }
    Ok(())
}

/// Rather one with something to edit. The lowest level often, from where most is out of sight, and often one that
/// cannot be compared with the label of a state.
fn any_level(table: &Table, random: &mut Random) -> u8 {
    let levels: Vec<u8> = (0..table.rows.len() as u8).collect();
    let mut wanted = levels.clone();
    wanted.retain(|&level| !editable(table, level).is_empty());
    if wanted.is_empty() {
        return *random.pick(&levels);
    }
    let beside = |&level: &u8| {
        let mut states = editable(table, level).into_iter();
        states.any(|state| is_beside(table, state, level))
    };
    let beside: Vec<u8> = wanted.iter().copied().filter(beside).collect();
    match random.below(3) {
        0 => wanted[0],
        1 if !beside.is_empty() => *random.pick(&beside),
        _ => *random.pick(&wanted),
    }
}

fn editable(table: &Table, level: u8) -> Vec<usize> {
    let states = 0..table.states.len();
    states
        .filter(|&state| table.may_be_edited(state, level))
        .collect()
}

/// The label of an edited state is not above the level either.
fn is_beside(table: &Table, state: usize, level: u8) -> bool {
    !table.flows(level, table.states[state].label)
}

/// Often all, at least one if there is any.
fn some(states: &[usize], random: &mut Random) -> Vec<usize> {
    let mut states = states.to_vec();
    random.shuffle(&mut states);
    if random.percent(50) {
        states.truncate(1 + random.below(states.len().max(1)));
    }
    states
}

/// New bodies in these states, as the generator has them, or with changes that the engine's check lets pass.
fn any_edit(
    engine: &Engine,
    table: &Table,
    states: &[usize],
    random: &mut Random,
    refused: &mut u64,
) -> Table {
    let edited = edited(table, states, random);
    if states.is_empty() || random.percent(50) {
        return edited;
    }
    let accepted = |table: &Table| {
        let accepted = (engine.check)(&table.image()).number == 0;
        *refused += u64::from(!accepted);
        accepted
    };
    tampered(edited, states, accepted, random)
}

fn try_lists(
    pair: &Pair,
    random: &mut Random,
    findings: &mut EditFindings,
) -> Result<(), Difference> {
    let [one, other] = &pair.stages;
    let level = pair.level;
    let common = common_list(one.table, level, random);
    let lists = [(); 2].map(|_| dressed(&common, one.table, level, random));
    let starts = [one, other].map(|stage| start(stage, level, random));
    let mut areas = starts.clone();
    let seen = one.watch(level, &lists[0], &mut areas[0])?;
    let across = other.watch(level, &lists[1], &mut areas[1])?;
    findings.pairs += 1;
    findings.cycles += seen.cycles.len() as u64;
    if seen != across {
        return Err(unequal(pair, &format!("matching lists {lists:?}")));
    }
    findings.hidden_differences += u64::from(areas[0].values() != areas[1].values());
    let top = top(one.table);
    let whole = [
        one.watch(top, &lists[0], &mut starts[0].clone())?,
        other.watch(top, &lists[1], &mut starts[1].clone())?,
    ];
    findings.from_top += u64::from(whole[0] != whole[1]);
    if note_ran(pair, &whole, findings) {
        let journals = |call: &Call| matches!(call, Call::RunJournalled { cycles: 1.. });
        let goes_back = |call: &Call| matches!(call, Call::StepBack { .. });
        findings.ran_in_lists += 1;
        findings.parameters += u64::from(one.table.has_parameters());
        findings.journalled += u64::from(common.iter().any(journals));
        findings.going_back += u64::from(common.iter().any(goes_back));
    }
    let unlike = altered(&lists[1], one.table, level, random);
    let unlike = other.watch(level, &unlike, &mut starts[1].clone())?;
    findings.altered.note(unlike != seen);
    break_premise(pair, &seen, &lists[1], random, findings)
}

/// Whether an edited body ran in either.
fn note_ran(pair: &Pair, whole: &[Seen; 2], findings: &mut EditFindings) -> bool {
    let cycles = whole.iter().flat_map(|seen| &seen.cycles);
    let ran = cycles.flat_map(|(_, walk)| walk.iter().map(|&(state, _)| usize::from(state)));
    let ran: Vec<usize> = ran.filter(|state| pair.edited.contains(state)).collect();
    let table = pair.stages[0].table;
    let beside = |&state: &usize| is_beside(table, state, pair.level);
    findings.ran += ran.len() as u64;
    findings.ran_beside += u64::from(ran.iter().any(beside));
    !ran.is_empty()
}

/// The same list where views may differ, since the designs differ in sight: the test has to find that.
fn break_premise(
    pair: &Pair,
    seen: &Seen,
    list: &[Call],
    random: &mut Random,
    findings: &mut EditFindings,
) -> Result<(), Difference> {
    let Stage { engine, table, .. } = pair.stages[1];
    let differs = |edit: Table, random: &mut Random| -> Result<bool, Difference> {
        let edit = Design::accepted(edit, engine).expect("an edit keeps every rule");
        let stage = edit.stage(engine);
        let areas = &mut start(&stage, pair.level, random);
        Ok(stage.watch(pair.level, list, areas)? != *seen)
    };
    let (bound, in_sight) = fixed(table, pair.level);
    let one_in_sight = vec![*random.pick(&in_sight)];
    for (states, broken) in [
        (one_in_sight, &mut findings.in_sight),
        (bound, &mut findings.bound),
    ] {
        let edit = edited(table, &states, random);
        if !edit.is_edited_out_of_sight(table, pair.level) {
            broken.note(differs(edit, random)?);
        }
    }
    let mut registers: Vec<usize> = (0..table.registers.len()).collect();
    registers.retain(|&register| table.flows(table.registers[register].label, pair.level));
    if !registers.is_empty() {
        let mut edit = table.clone();
        // The lowest bit, which every width has.
        edit.registers[*random.pick(&registers)].reset ^= 1;
        findings.reset.note(differs(edit, random)?);
    }
    Ok(())
}

/// The states whose bodies have to be the same: those with a parameter's label, and those at or below the level,
/// of which the root is one.
fn fixed(table: &Table, level: u8) -> (Vec<usize>, Vec<usize>) {
    let states = 0..table.states.len();
    let fixed = states.filter(|&state| !table.may_be_edited(state, level));
    fixed.partition(|&state| table.states[state].label >= PARAMETER_LABEL)
}

fn try_replays(
    pair: &Pair,
    random: &mut Random,
    findings: &mut EditFindings,
) -> Result<(), Difference> {
    let table = pair.stages[0].table;
    let level = pair.level;
    let cycles = random.between(0, 12) as u32;
    let low = replays::low_trace(table, level, cycles, random);
    let traces = [(); 2].map(|_| replays::dressed(&low, table, level, cycles, random));
    let mut watch = |level: u8| -> Result<[Watched; 2], Difference> {
        let [one, other] = &pair.stages;
        Ok([
            replays::watch(one, level, &traces[0], cycles, random)?,
            replays::watch(other, level, &traces[1], cycles, random)?,
        ])
    };
    let [one, other] = watch(level)?;
    findings.replays += 1;
    findings.cycles += u64::from(cycles);
    if one.seen != other.seen {
        return Err(unequal(
            pair,
            &format!("replays of {cycles} cycles {traces:?}"),
        ));
    }
    let whole = watch(top(table))?.map(|watched| watched.seen);
    findings.from_top += u64::from(whole[0] != whole[1]);
    findings.ran_in_replays += u64::from(note_ran(pair, &whole, findings));
    Ok(())
}

fn unequal(pair: &Pair, what: &str) -> Difference {
    let what = format!(
        "an edit of states {:?}, at level {}, {what}",
        pair.edited, pair.level
    );
    Difference::new(pair.stages[1].image, &what, "unequal views", "equal views")
}

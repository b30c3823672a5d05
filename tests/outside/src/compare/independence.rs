//! Demand 3 tried on an engine: matching lists have equal views.

use super::areas::Areas;
use super::calls::Call;
use super::chance::any_sound_choices;
use super::children::low_children;
use super::difference::Difference;
use super::engine::Engine;
use super::matching::{
    altered, common_list, dressed, is_too_large, refused_in_journal, unlike_in_journal, ROOM,
};
use super::view::{Seen, Stage};
use crate::generate::random::Random;
use crate::generate::{any_design as generated, faults, Size};
use crate::reference::image::Image;
use crate::reference::limits::TARGET_BYTES;
use crate::reference::machine::Machine;
use crate::table::Table;
use crate::{designs, reference};

const PAIRS: usize = 4;

/// What was tried, and that the test could have failed.
#[derive(Default)]
pub struct Findings {
    pub pairs: u64,
    pub cycles: u64,
    /// Designs with a fault of 9 to 12, 16 or 19, which were turned down.
    pub refused: u64,
    /// Matching lists after which some register not at or below the level differs.
    pub hidden_differences: u64,
    /// Writes of values too large, struck out of one list or the other.
    pub too_large: u64,
    /// Lists made not to match, and how many of them were seen to differ.
    pub altered: u64,
    pub altered_seen: u64,
    /// Matching lists looked at from the top, where all is seen, and how many differed there.
    pub from_top: u64,
    pub from_top_seen: u64,
    /// Matching lists at a level that sees a spare child and not its parent, and how many of them
    /// differed there from targets that no run from reset leaves.
    pub spare: u64,
    pub spare_entered: u64,
    /// Matching lists on designs with parameters; how many of them show a register that was bound, have a
    /// state that is in sight by one binding and not by another, and end with other bindings out of sight.
    pub parameters: u64,
    pub bound_seen: u64,
    pub in_and_out_of_sight: u64,
    pub hidden_bindings: u64,
    /// Matching lists that go back; how many end with journals that differ, so out of sight alone; and calls
    /// on journals that were struck out.
    pub going_back: u64,
    pub hidden_saved: u64,
    pub refused_in_journal: u64,
    /// Lists made to journal another cycle or to go back by another number, and how many were seen to differ.
    pub unlike: u64,
    pub unlike_seen: u64,
    /// Matching lists begun with a saved state of other targets and the same registers in sight, and how many
    /// were seen to differ: why journals begin empty.
    pub lent: u64,
    pub lent_seen: u64,
}

impl Findings {
    pub fn print(&self) {
        println!(
            "{} pairs of matching lists, {} cycles: all views equal",
            self.pairs, self.cycles
        );
        println!(
            "  {} designs with a fault of 9 to 12, 16 or 19 were refused",
            self.refused
        );
        println!(
            "  after {} of the pairs registers out of sight differ",
            self.hidden_differences
        );
        println!(
            "  {} writes of values too large were struck out",
            self.too_large
        );
        println!(
            "{} of {} lists made not to match were seen to differ",
            self.altered_seen, self.altered
        );
        println!(
            "{} of {} pairs were seen to differ from the top",
            self.from_top_seen, self.from_top
        );
        println!(
            "  {} of the pairs see a spare child and not its parent; {} differ where it is entered at once",
            self.spare, self.spare_entered
        );
        println!(
            "{} of the pairs have parameters: {} show a bound register, {} a state in sight and out of it, \
             {} end with other bindings out of sight",
            self.parameters, self.bound_seen, self.in_and_out_of_sight, self.hidden_bindings
        );
        println!(
            "{} of the pairs go back, {} end with journals that differ out of sight; {} calls on journals \
             were struck out",
            self.going_back, self.hidden_saved, self.refused_in_journal
        );
        println!(
            "  {} of {} that journal or go back unlike were seen to differ, {} of {} with a journal not begun \
             empty",
            self.unlike_seen, self.unlike, self.lent_seen, self.lent
        );
    }

    /// Of matching lists and the areas after them.
    fn note_journals(&mut self, common: &[Call], lists: &[Vec<Call>; 2], areas: &mut [Areas; 2]) {
        let goes_back = |call: &Call| matches!(call, Call::StepBack { .. });
        self.going_back += u64::from(common.iter().any(goes_back));
        let [one, other] = areas;
        self.hidden_saved += u64::from(one.all_saved() != other.all_saved());
        for list in lists {
            self.refused_in_journal += refused_in_journal(list);
        }
    }

    /// The test would have found a difference.
    pub fn able(&self) -> bool {
        let able = [
            self.hidden_differences,
            self.too_large,
            self.altered_seen,
            self.from_top_seen,
            self.spare,
            self.spare_entered,
            self.parameters,
            self.bound_seen,
            self.in_and_out_of_sight,
            self.hidden_bindings,
            self.going_back,
            self.hidden_saved,
            self.refused_in_journal,
            self.unlike_seen,
            self.lent_seen,
        ];
        !able.contains(&0)
    }
}

pub fn pairs_of_seed(
    engine: &Engine,
    seed: u64,
    findings: &mut Findings,
) -> Result<(), Difference> {
    let mut random = Random::new(seed);
    let table = any_design(&mut random);
    let image = table.image();
    if (engine.check)(&image).number != 0 {
        findings.refused += 1;
        return Ok(());
    }
    let sections = Image::open(&image).expect("these faults leave the sections alone");
    let stage = Stage {
        engine,
        table: &table,
        image: &image,
        machine: &Machine::new(&sections),
    };
    for _ in 0..PAIRS {
        try_pair(&stage, &mut random, findings)?;
    }
    Ok(())
}

fn try_pair(stage: &Stage, random: &mut Random, findings: &mut Findings) -> Result<(), Difference> {
    let table = stage.table;
    // The lowest level often: from there most is out of sight.
    let any = random.below(table.rows.len()) as u8;
    let level = *random.pick(&[0, any]);
    let common = common_list(table, level, random);
    let lists = [(); 2].map(|_| dressed(&common, table, level, random));
    let starts = [(); 2].map(|_| start(stage, level, random));

    let mut areas = starts.clone();
    let one = stage.watch(level, &lists[0], &mut areas[0])?;
    let other = stage.watch(level, &lists[1], &mut areas[1])?;
    findings.pairs += 1;
    let calls = lists.iter().flatten();
    findings.too_large += calls.filter(|call| is_too_large(call, table)).count() as u64;
    findings.cycles += one.cycles.len() as u64;
    if one != other {
        let what = format!("matching lists at level {level}: {lists:?}");
        return Err(Difference::new(
            stage.image,
            &what,
            "unequal views",
            "equal views",
        ));
    }
    findings.hidden_differences += u64::from(areas[0].values() != areas[1].values());
    if table.has_parameters() {
        findings.parameters += 1;
        findings.bound_seen += u64::from(one.shows_binding());
        let [one, other] = &mut areas;
        findings.hidden_bindings += u64::from(bindings(one) != bindings(other));
        let turns = turns(stage, level, &lists[0], &starts[0]);
        findings.in_and_out_of_sight += u64::from(turns);
    }
    findings.note_journals(&common, &lists, &mut areas);
    try_altered(stage, level, &one, &lists[1], &starts[1], random, findings)?;
    begin_lent(stage, level, &lists, &starts, random, findings)?;
    let top = top(table);
    let one = stage.watch(top, &lists[0], &mut starts[0].clone())?;
    let other = stage.watch(top, &lists[1], &mut starts[1].clone())?;
    findings.from_top += 1;
    findings.from_top_seen += u64::from(one != other);
    enter_spare(stage, level, &lists, starts, findings)
}

/// The same test where views may differ: it has to find that.
fn try_altered(
    stage: &Stage,
    level: u8,
    seen: &Seen,
    list: &[Call],
    start: &Areas,
    random: &mut Random,
    findings: &mut Findings,
) -> Result<(), Difference> {
    let changed = altered(list, stage.table, level, random);
    let changed = stage.watch(level, &changed, &mut start.clone())?;
    findings.altered += 1;
    findings.altered_seen += u64::from(*seen != changed);
    let Some(unlike) = unlike_in_journal(list, random) else {
        return Ok(());
    };
    let unlike = stage.watch(level, &unlike, &mut start.clone())?;
    findings.unlike += 1;
    findings.unlike_seen += u64::from(*seen != unlike);
    Ok(())
}

fn bindings(areas: &mut Areas) -> Vec<u8> {
    let area = areas.targets.whole();
    area[area.len() / TARGET_BYTES..].to_vec()
}

/// Some state ran in sight, and out of it in another cycle.
fn turns(stage: &Stage, level: u8, list: &[Call], start: &Areas) -> bool {
    let mut areas = start.clone();
    let mut met = vec![[false; 2]; stage.table.states.len()];
    for &call in list {
        let Some(one) = call.of_one_cycle() else {
            stage.make(call, &mut areas);
            continue;
        };
        // A refused run has none.
        let cycles = stage.make(call, &mut areas.clone()).count;
        for _ in 0..cycles {
            for ran in stage.walk(&mut areas) {
                let sees = stage.table.flows(ran.label, level);
                met[usize::from(ran.state)][usize::from(sees)] = true;
            }
            stage.make(one, &mut areas);
        }
    }
    met.contains(&[true; 2])
}

/// The matching lists again, where views may differ: with a step back before them, to a saved state that no
/// call has journalled. It has the registers of the start, and any sound targets and bindings.
fn begin_lent(
    stage: &Stage,
    level: u8,
    lists: &[Vec<Call>; 2],
    starts: &[Areas; 2],
    random: &mut Random,
    findings: &mut Findings,
) -> Result<(), Difference> {
    let mut seen = Vec::new();
    for (list, start) in lists.iter().zip(starts) {
        let mut areas = start.clone();
        let mut other = start.clone();
        any_sound_choices(&mut other, stage.table, random);
        let saved = [other.registers.whole(), other.targets.whole()].concat();
        areas.saved(0).copy_from_slice(&saved);
        areas.set_count(1);
        let list = [&[Call::StepBack { cycles: 1 }][..], list].concat();
        seen.push(stage.watch(level, &list, &mut areas)?);
    }
    findings.lent += 1;
    findings.lent_seen += u64::from(seen[0] != seen[1]);
    Ok(())
}

/// The matching lists again, where views may differ: from sound targets that no run from reset leaves,
/// by which states out of sight fall to spare children in sight.
fn enter_spare(
    stage: &Stage,
    level: u8,
    lists: &[Vec<Call>; 2],
    mut starts: [Areas; 2],
    findings: &mut Findings,
) -> Result<(), Difference> {
    let table = stage.table;
    let sees = |state: u8| table.flows(table.states[usize::from(state)].label, level);
    let image = Image::open(stage.image).expect("an accepted image");
    let mut spare = low_children(&image);
    spare.retain(|low| low.is_spare() && sees(low.child) && !sees(low.parent));
    if spare.is_empty() {
        return Ok(());
    }
    for areas in &mut starts {
        for low in &spare {
            areas.targets.whole()[usize::from(low.parent)] = low.child;
        }
    }
    let [one, other] = &mut starts;
    let one = stage.watch(level, &lists[0], one)?;
    let other = stage.watch(level, &lists[1], other)?;
    findings.spare += 1;
    findings.spare_entered += u64::from(one != other);
    Ok(())
}

/// Small and lively, and often with a fault in its flow, its ports or its parameters: whatever the library
/// accepts must keep parties apart.
pub fn any_design(random: &mut Random) -> Table {
    loop {
        let table = small_design(random);
        // One label has nothing to keep apart.
        if table.rows.len() > 1 {
            return table;
        }
    }
}

fn small_design(random: &mut Random) -> Table {
    let mut table = match random.below(26) {
        0 => designs::lease(),
        1 => designs::two_groups(),
        2 => designs::valve(),
        3 => designs::level(),
        4 => designs::spare_child(),
        5 | 6 => designs::one_group(),
        7 => designs::exchange(),
        8 => designs::line(),
        9 => designs::hidden_choice(),
        _ => {
            let size = Size {
                labels: *random.pick(&[2, 2, 3, 4, 5, 15]),
                registers: random.between(2, 6),
                states: random.between(3, 8),
                commands: random.between(9, 60),
                expressions: random.between(10, 60),
            };
            generated(random, size)
        }
    };
    if random.percent(70) {
        let number = *random.pick(&[9, 10, 11, 12, 9, 10, 11, 12, 16, 19]);
        for _ in 0..10 {
            faults::spoil(&mut table, number, random);
            if reference::check(&table.image()).number != 0 {
                break;
            }
        }
    }
    table
}

/// Any areas, reset, and then any values within their widths in the registers not at or below the
/// level; and an empty journal.
pub fn start(stage: &Stage, level: u8, random: &mut Random) -> Areas {
    let mut areas = Areas::new(stage.table, ROOM, random);
    stage.make(Call::Reset, &mut areas);
    areas.set_count(0);
    for (register, record) in stage.table.registers.iter().enumerate() {
        if !stage.table.flows(record.label, level) {
            areas.set_value(register, random.fitting(record.width));
        }
    }
    areas
}

/// The label to which all flow.
pub fn top(table: &Table) -> u8 {
    let labels = 0..table.rows.len() as u8;
    let is_top = |&label: &u8| labels.clone().all(|lower| table.flows(lower, label));
    labels.clone().find(is_top).expect("a lattice has a top")
}

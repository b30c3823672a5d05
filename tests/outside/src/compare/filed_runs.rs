//! An image and its filing form side by side, on the same areas, by the same calls: the same answers, and the same
//! bytes in every area after each call. States keep their numbers, so targets and walks are the same too.

use super::areas::{Areas, Lengths};
use super::calls::Call;
use super::chance::{any_call, any_lengths, disturb};
use super::difference::Difference;
use super::engine::Engine;
use super::journal_chance::{any_journal_call, any_journal_length, any_room, disturb_journal};
use super::view::Stage;
use crate::generate::random::Random;
use crate::reference::image::Image;
use crate::reference::limits::MOST_CYCLES;
use crate::reference::machine::Machine;
use crate::table::Table;

const CALLS: usize = 10;

/// The most cycles of one run.
const CYCLES: u32 = 12;

/// So many lists at least, and so many of them on images that are not their forms.
const FEWEST: u64 = 100;
const FEWEST_MOVED: u64 = 50;

/// What was run.
#[derive(Default)]
pub struct Runs {
    lists: u64,
    /// On images that are not their forms.
    moved: u64,
    cycles: u64,
    refused: u64,
    writes: u64,
    journalled: u64,
    back: u64,
    /// Lists after which some area is not as reset left it.
    changed: u64,
}

impl Runs {
    pub fn print(&self) {
        println!(
            "{} lists on an image and its form, {} with other numbers, {} cycles: same answers and areas",
            self.lists, self.moved, self.cycles
        );
        println!(
            "  {} port writes, {} calls refused, {} journalled runs, {} steps back; {} lists changed registers",
            self.writes, self.refused, self.journalled, self.back, self.changed
        );
    }

    pub fn missing(&self) -> Vec<String> {
        let mut missing = Vec::new();
        for (what, count, fewest) in [
            ("lists on forms", self.lists, FEWEST),
            ("lists, other numbers", self.moved, FEWEST_MOVED),
            ("cycles of forms", self.cycles, FEWEST),
            ("port writes", self.writes, FEWEST),
            ("refused calls", self.refused, FEWEST),
            ("journalled runs", self.journalled, FEWEST),
            ("steps back", self.back, FEWEST_MOVED),
            ("lists that changed registers", self.changed, FEWEST_MOVED),
        ] {
            if count < fewest {
                missing.push(format!("{what}: {count} of {fewest}"));
            }
        }
        missing
    }

    /// One list of calls on both.
    pub fn try_list(
        &mut self,
        engine: &Engine,
        (image, form): (&[u8], &[u8]),
        random: &mut Random,
    ) -> Result<(), Difference> {
        let table = Table::open(image).expect("an accepted image");
        let machine = |bytes| Image::open(bytes).ok().map(|image| Machine::new(&image));
        let (Some(one), Some(other)) = (machine(image), machine(form)) else {
            return Err(differ(image, "no image".to_string()));
        };
        let stage = |image, machine| Stage {
            engine,
            table: &table,
            image,
            machine,
        };
        let room = any_room(&table, random);
        let areas = Areas::new(&table, room, random);
        let mut pair = Pair {
            stages: [stage(image, &one), stage(form, &other)],
            areas: [areas.clone(), areas],
        };
        self.lists += 1;
        self.moved += u64::from(image != form);
        let whole = pair.areas[0].lengths();
        pair.make(Call::Reset, whole, self)?;
        pair.change(random, |areas, _| areas.set_count(0));
        let reset = pair.areas[0].values();
        for _ in 0..CALLS {
            // Seldom enough that few lists stay refused to their end.
            if random.percent(30) {
                pair.change(random, |areas, random| {
                    disturb(areas, &table, random);
                    disturb_journal(areas, &table, random);
                });
            }
            let areas = &mut pair.areas[0];
            let call = match random.percent(40) {
                true => any_journal_call(areas, random),
                false => any_call(&table, random),
            };
            let call = shortened(call);
            let mut lengths = areas.lengths();
            if random.percent(30) {
                lengths = any_lengths(areas, random);
                lengths.journal = any_journal_length(areas, call, random);
            }
            pair.make(call, lengths, self)?;
        }
        self.changed += u64::from(pair.areas[0].values() != reset);
        Ok(())
    }
}

/// A run of few cycles or too many.
fn shortened(call: Call) -> Call {
    match call {
        Call::Run { cycles } if cycles <= MOST_CYCLES => Call::Run {
            cycles: cycles.min(CYCLES),
        },
        call => call,
    }
}

fn differ(image: &[u8], why: String) -> Difference {
    Difference::new(
        image,
        &format!("filed: {why}"),
        "of the form",
        "of the image",
    )
}

/// The image, its form, and the areas of each.
struct Pair<'a> {
    stages: [Stage<'a>; 2],
    areas: [Areas; 2],
}

impl Pair<'_> {
    fn make(&mut self, call: Call, lengths: Lengths, runs: &mut Runs) -> Result<(), Difference> {
        let [one, other] = &self.stages;
        let mut before = self.areas[0].clone();
        let make = |stage: &Stage, areas: &mut Areas| {
            (stage.engine).make(call, stage.image, areas.lend(lengths))
        };
        let answer = make(one, &mut self.areas[0]);
        let given = make(other, &mut self.areas[1]);
        let differ = |why| Err(differ(one.image, why));
        if answer != given {
            return differ(format!(
                "{call:?} answers {answer}, and {given} of the form"
            ));
        }
        if self.areas[0] != self.areas[1] {
            return differ(format!("other areas after {call:?}"));
        }
        let accepted = answer.number == 0;
        runs.refused += u64::from(!accepted);
        runs.writes += u64::from(accepted && matches!(call, Call::WritePort { .. }));
        runs.back += u64::from(answer.count > 0 && matches!(call, Call::StepBack { .. }));
        if call.of_one_cycle().is_some() && answer.count > 0 {
            runs.cycles += answer.count as u64;
            runs.journalled += u64::from(matches!(call, Call::RunJournalled { .. }));
            if one.walk(&mut before) != other.walk(&mut before) {
                return differ(format!("other walks in {call:?}"));
            }
        }
        Ok(())
    }

    /// The host writes the areas between two calls.
    fn change(&mut self, random: &mut Random, change: impl Fn(&mut Areas, &mut Random)) {
        let [one, other] = &mut self.areas;
        change(one, &mut random.clone());
        change(other, random);
    }
}

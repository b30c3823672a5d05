//! An image and its pruned one side by side, from reset, by the same resets, port writes and runs: the same
//! answers, the same registers after every call and cycle, and the same walks under the new numbers.

use super::areas::Areas;
use super::calls::Call;
use super::chance::any_call;
use super::difference::Difference;
use super::engine::Engine;
use super::pruned::Pruned;
use super::view::Stage;
use crate::generate::random::Random;
use crate::reference::image::Image;
use crate::reference::limits::MOST_CYCLES;
use crate::reference::machine::Machine;
use crate::table::Table;

const CALLS: usize = 8;

/// The most cycles of one run.
const CYCLES: u32 = 12;

/// So many pairs of lists at least, and so many of them on images of which something was dropped.
const FEWEST_PAIRS: u64 = 100;
const FEWEST_DROPPED: u64 = 50;

/// What was run.
#[derive(Default)]
pub struct Runs {
    pub pairs: u64,
    /// On images of which something was dropped.
    pub dropped: u64,
    pub cycles: u64,
    /// Calls that were refused on both.
    pub refused: u64,
    /// Accepted port writes.
    pub writes: u64,
    /// Cycles that walked through a state of another number; with a register bound to it.
    pub moved: u64,
    pub moved_bound: u64,
    /// Pairs after which the registers are not those of reset.
    pub changed: u64,
}

impl Runs {
    pub fn print(&self) {
        println!(
            "{} pairs of an image and its pruned one, {} with something dropped, {} cycles: same answers, \
             registers and walks",
            self.pairs, self.dropped, self.cycles
        );
        println!(
            "  {} port writes, {} calls refused; {} cycles walked under new numbers, {} with a register bound \
             there; {} pairs changed registers",
            self.writes, self.refused, self.moved, self.moved_bound, self.changed
        );
    }

    pub fn missing(&self) -> Vec<String> {
        let mut missing = Vec::new();
        for (what, count, fewest) in [
            ("pairs of runs", self.pairs, FEWEST_PAIRS),
            (
                "pairs of runs, something dropped",
                self.dropped,
                FEWEST_DROPPED,
            ),
            ("cycles of pruned images", self.cycles, FEWEST_PAIRS),
            ("port writes between cycles", self.writes, FEWEST_PAIRS),
            ("refused calls", self.refused, FEWEST_PAIRS),
            ("cycles under new numbers", self.moved, FEWEST_DROPPED),
            ("cycles under new numbers, bound", self.moved_bound, 1),
            ("runs that changed registers", self.changed, FEWEST_DROPPED),
        ] {
            if count < fewest {
                missing.push(format!("{what}: {count} of {fewest}"));
            }
        }
        // Half of the images at least have something to drop.
        if self.dropped < self.pairs / 2 {
            missing.push(format!(
                "only {} of the pairs dropped something",
                self.dropped
            ));
        }
        missing
    }

    /// One list of calls on both.
    pub fn try_list(
        &mut self,
        engine: &Engine,
        (image, result): (&[u8], &[u8]),
        pruned: &Pruned,
        random: &mut Random,
    ) -> Result<(), Difference> {
        let differ = |why: String| {
            Difference::new(
                image,
                &format!("pruned: {why}"),
                "of the result",
                "of the image",
            )
        };
        let table = Table::open(result).ok_or_else(|| differ("no image".to_string()))?;
        let machine = |bytes| Machine::new(&Image::open(bytes).expect("an accepted image"));
        let stage = |table, image, machine| Stage {
            engine,
            table,
            image,
            machine,
        };
        let (one, other) = (machine(image), machine(result));
        let mut pair = Pair {
            one: stage(&pruned.table, image, &one),
            other: stage(&table, result, &other),
            areas: [&pruned.table, &table].map(|table| Areas::new(table, 0, random)),
            pruned,
        };
        self.pairs += 1;
        self.dropped += u64::from(pruned.drops());
        pair.make(Call::Reset, self).map_err(differ)?;
        let reset = pair.areas[0].values();
        for _ in 0..CALLS {
            pair.make(some_call(&pruned.table, random), self)
                .map_err(differ)?;
        }
        self.changed += u64::from(pair.areas[0].values() != reset);
        Ok(())
    }
}

/// Any call of a list, with few cycles or too many.
fn some_call(table: &Table, random: &mut Random) -> Call {
    match any_call(table, random) {
        Call::Run { cycles } if cycles <= MOST_CYCLES => Call::Run {
            cycles: cycles.min(CYCLES),
        },
        call => call,
    }
}

/// The image, its pruned one, and the areas of each.
struct Pair<'a> {
    one: Stage<'a>,
    other: Stage<'a>,
    areas: [Areas; 2],
    pruned: &'a Pruned,
}

impl Pair<'_> {
    fn make(&mut self, call: Call, runs: &mut Runs) -> Result<(), String> {
        let before = self.areas.clone();
        let [one, other] = &mut self.areas;
        let (answer, given) = (self.one.make(call, one), self.other.make(call, other));
        if answer != given {
            return Err(format!(
                "{call:?} answers {answer}, and {given} of the result"
            ));
        }
        runs.refused += u64::from(answer.number != 0);
        runs.writes += u64::from(answer.number == 0 && matches!(call, Call::WritePort { .. }));
        if answer.number == 0 && call.of_one_cycle().is_some() {
            let after = std::mem::replace(&mut self.areas, before);
            for _ in 0..answer.count {
                self.cycle(runs)?;
            }
            if self.areas != after {
                return Err(format!("{call:?} is not so many runs of one cycle"));
            }
        }
        self.same_registers(call)
    }

    fn cycle(&mut self, runs: &mut Runs) -> Result<(), String> {
        let [one, other] = &mut self.areas;
        let mut walk = self.one.walk(one);
        for ran in &mut walk {
            let number = self.pruned.number(ran.state);
            if !self.pruned.reached[usize::from(ran.state)] {
                return Err(format!("state {} runs and is dropped", ran.state));
            }
            runs.moved += u64::from(number != ran.state);
            runs.moved_bound += u64::from(number != ran.state && ran.bound[0].is_some());
            ran.state = number;
        }
        let given = self.other.walk(other);
        if walk != given {
            return Err(format!(
                "walks {walk:?} under the new numbers, and {given:?}"
            ));
        }
        let one_cycle = Call::Run { cycles: 1 };
        self.one.make(one_cycle, one);
        self.other.make(one_cycle, other);
        runs.cycles += 1;
        self.same_registers(one_cycle)
    }

    fn same_registers(&mut self, call: Call) -> Result<(), String> {
        let [one, other] = &mut self.areas;
        if one.registers.whole() != other.registers.whole() {
            return Err(format!("other registers after {call:?}"));
        }
        Ok(())
    }
}

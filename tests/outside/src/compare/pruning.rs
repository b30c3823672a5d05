//! Random designs pruned by an engine and by the reference: answers and all bytes of the area, its guards and the
//! image are compared. What request E11 says of a result is also asked of the engine itself.

use super::areas::Area;
use super::difference::Difference;
use super::engine::{Engine, REFERENCE};
use super::pruned::{note_pruned, note_refused, Pruned};
use super::pruned_runs::Runs;
use super::tally::Tally;
use super::written::compare_written;
use crate::answer::Answer;
use crate::generate::random::Random;
use crate::generate::{any_design, faults, lively, with_spares, Size};
use crate::reference::image::Image;
use crate::reference::limits::DIRECTORY_BYTES;
use crate::reference::refusal;
use crate::table::Table;
use crate::{designs, reference};

/// The most bytes by which an area is longer than image and result: guards are as long.
const LONGER: usize = 32;

#[derive(Default)]
pub struct Tallies {
    tally: Tally,
    runs: Runs,
}

impl Tallies {
    pub fn print(&self) {
        self.tally.print("prune");
        self.runs.print();
    }

    /// Acceptance, every image refusal, 24, the reasons, and runs of images and results.
    pub fn missing(&self) -> Vec<String> {
        let given = [refusal::IMAGE, &[24]].concat();
        let missing = self.tally.missing_of(&given).into_iter();
        let missing = missing.chain(self.runs.missing());
        missing.map(|what| format!("prune: {what}")).collect()
    }

    /// Prunes one image by both, into areas of the same bytes. Gives the bytes lent afterwards.
    fn compare(
        &mut self,
        engine: &Engine,
        image: &[u8],
        length: usize,
        area: Area,
    ) -> Result<(Answer, Vec<u8>), Difference> {
        let calls = [engine.prune, REFERENCE.prune];
        let (answer, bytes) = compare_written("prune", calls, image, length, area)?;
        self.tally.add(answer, image.len());
        if !matches!(answer.number, 0 | 24) {
            note_refused(&mut self.tally, image, length, answer);
        }
        Ok((answer, bytes))
    }

    /// Into areas of several lengths on either side of what the result has, and then run beside it.
    fn prune(
        &mut self,
        engine: &Engine,
        image: &[u8],
        random: &mut Random,
    ) -> Result<(), Difference> {
        if reference::check(image).number != 0 {
            let length = *random.pick(&[0, image.len(), image.len() + LONGER]);
            let area = Area::new(length, random);
            return self.compare(engine, image, length, area).map(|_| ());
        }
        let pruned = Pruned::of(image);
        let result = pruned.image();
        let right = result.len();
        let other = match random.below(8) {
            0 => 0,
            1 => random.below(right),
            2 => right + 1,
            3 => right + random.below(LONGER),
            4 => image.len(),
            5 => random.between(right, image.len()),
            6 => image.len() + random.between(1, LONGER),
            _ => random.below(DIRECTORY_BYTES),
        };
        let mut own = Vec::new();
        for length in [right - 1, other, right] {
            let area = Area::new(length, random);
            let (answer, bytes) = self.compare(engine, image, length, area)?;
            note_pruned(&mut self.tally, image, length, answer, &pruned);
            let differ = |why: &str| Difference::new(image, &format!("prune: {why}"), answer, "");
            if answer.number == 0 {
                own = bytes[..answer.count].to_vec();
                keeps_its_word(engine, image, &own).map_err(differ)?;
                if own != result {
                    return Err(differ(
                        "walking the bodies comes to another result, by both",
                    ));
                }
            }
        }
        self.runs.try_list(engine, (image, &own), &pruned, random)
    }
}

/// By the engine alone, but for which states are reached.
fn keeps_its_word(engine: &Engine, image: &[u8], result: &[u8]) -> Result<(), &'static str> {
    if (engine.check)(result) != Answer::accepted(0) {
        return Err("check refuses the result");
    }
    let mut again = vec![0xAA; result.len()];
    if (engine.prune)(result, &mut again) != Answer::accepted(result.len()) || again != result {
        return Err("pruning the result changes it again");
    }
    let all_reached = |bytes| {
        let image = Image::open(bytes).expect("an accepted image");
        reference::reached(&image).iter().all(|&reached| reached)
    };
    if !all_reached(result) {
        return Err("the result has a state that is not reached");
    }
    if all_reached(image) != (image == result) {
        return Err("an image with all states reached changes, or another one does not");
    }
    Ok(())
}

/// The empty image as a C host may lend it, and no area.
#[cfg(feature = "library")]
pub fn about_null() -> Result<(), Difference> {
    let (given, expected) = (crate::library::prune_null(), reference::prune(&[], &mut []));
    if given == expected {
        return Ok(());
    }
    let what = "prune of null into null, lengths 0";
    Err(Difference::new(&[], what, given, expected))
}

/// The prunings that need no chance: areas of every length that a result can miss or leave, on the worked designs.
pub fn fixed_images(engine: &Engine, tallies: &mut Tallies) -> Result<(), Difference> {
    let mut random = Random::new(0);
    for table in designs::worked() {
        let image = table.image();
        for length in 0..image.len() + LONGER {
            let area = Area::new(length, &mut random);
            tallies.compare(engine, &image, length, area)?;
        }
    }
    let largest = designs::largest();
    tallies.prune(engine, &largest.image(), &mut random)?;
    for last in [1, 2, 31, 62] {
        let cut = designs::going_round(&largest, last);
        tallies.prune(engine, &cut.image(), &mut random)?;
    }
    tallies.prune(engine, &designs::going_down(&largest).image(), &mut random)
}

/// Random designs, the same with spare states and without any, and spoiled ones.
pub fn prunings_of_seed(
    engine: &Engine,
    seed: u64,
    tallies: &mut Tallies,
) -> Result<(), Difference> {
    let mut random = Random::new(seed);
    let size = Size::random(&mut random);
    let any = any_design(&mut random, size);
    tallies.prune(engine, &any.image(), &mut random)?;
    tallies.prune(engine, &with_spares(&any, &mut random).image(), &mut random)?;
    for _ in 0..6 {
        let table = lively(&mut random);
        tallies.prune(engine, &table.image(), &mut random)?;
        let spared = with_spares(&table, &mut random);
        tallies.prune(engine, &spared.image(), &mut random)?;
        let mut kept = without_spares(&table);
        kept.renumber(&mut random);
        tallies.prune(engine, &kept.image(), &mut random)?;
        let spared = with_spares(&kept, &mut random);
        tallies.prune(engine, &spared.image(), &mut random)?;
    }
    let table = with_spares(&lively(&mut random), &mut random);
    for &number in faults::NUMBERS {
        let spoiled = faults::spoiled(&table, &[number], &mut random);
        tallies.prune(engine, &spoiled.image(), &mut random)?;
    }
    for _ in 0..3 {
        let leaking = faults::leaking(&table, &mut random);
        tallies.prune(engine, &leaking.image(), &mut random)?;
    }
    let broken = faults::spoil_directory(&table, &mut random);
    tallies.prune(engine, &broken, &mut random)?;
    let damaged = faults::damaged(table.image(), &mut random);
    tallies.prune(engine, &damaged, &mut random)
}

/// The design pruned by the reference.
fn without_spares(table: &Table) -> Table {
    let image = table.image();
    let mut out = vec![0; image.len()];
    let answer = reference::prune(&image, &mut out);
    Table::open(&out[..answer.count]).expect("an accepted image")
}

//! Random designs filed by an engine and by the reference: answers and all bytes of the area, its guards and the
//! image are compared. What request E12 says of a form is also asked of the engine itself, under other numbers too.

use super::areas::Area;
use super::difference::Difference;
use super::earlier::Pairs;
use super::engine::{Engine, REFERENCE};
use super::filed::{note_filed, note_refused, Filed};
use super::filed_runs::Runs;
use super::tally::Tally;
use super::written::compare_written;
use crate::answer::Answer;
use crate::generate::random::Random;
use crate::generate::{any_design, faults, lively, renumbered, with_spares, Size};
use crate::reference::limits::DIRECTORY_BYTES;
use crate::reference::refusal;
use crate::table::Table;
use crate::{designs, reference};

/// The most bytes by which an area is longer than the form: guards are as long.
const LONGER: usize = 32;

#[derive(Default)]
pub struct Tallies {
    tally: Tally,
    pairs: Pairs,
    runs: Runs,
}

impl Tallies {
    pub fn print(&self) {
        self.tally.print("file");
        self.runs.print();
        self.pairs.print();
    }

    /// Acceptance, every image refusal, 24, the reasons, runs of images and forms, and kinds of pairs.
    pub fn missing(&self) -> Vec<String> {
        let given = [refusal::IMAGE, &[24]].concat();
        let missing = self.tally.missing_of(&given).into_iter();
        let missing = missing.chain(self.runs.missing());
        let missing = missing.map(|what| format!("file: {what}"));
        let pairs = self.pairs.missing().into_iter();
        missing
            .chain(pairs.map(|what| format!("earlier: {what}")))
            .collect()
    }

    /// Files one image by both, into areas of the same bytes. Gives the bytes lent afterwards.
    fn compare(
        &mut self,
        engine: &Engine,
        image: &[u8],
        length: usize,
        area: Area,
    ) -> Result<(Answer, Vec<u8>), Difference> {
        let calls = [engine.file, REFERENCE.file];
        let (answer, bytes) = compare_written("file", calls, image, length, area)?;
        self.tally.add(answer, image.len());
        if !matches!(answer.number, 0 | 24) {
            note_refused(&mut self.tally, image, length);
        }
        Ok((answer, bytes))
    }

    /// Into areas of several lengths on either side of what the form has, and then run beside it. Gives the form.
    fn file(
        &mut self,
        engine: &Engine,
        image: &[u8],
        random: &mut Random,
    ) -> Result<Vec<u8>, Difference> {
        if reference::check(image).number != 0 {
            let length = *random.pick(&[0, image.len(), image.len() + LONGER]);
            let area = Area::new(length, random);
            self.compare(engine, image, length, area)?;
            return Ok(Vec::new());
        }
        let filed = Filed::of(image);
        let right = image.len();
        let other = match random.below(6) {
            0 => 0,
            1 => random.below(right),
            2 => right + 1,
            3 | 4 => right + random.between(2, LONGER),
            _ => random.below(DIRECTORY_BYTES),
        };
        let mut own = Vec::new();
        for length in [right - 1, other, right] {
            let area = Area::new(length, random);
            let (answer, bytes) = self.compare(engine, image, length, area)?;
            note_filed(&mut self.tally, &filed, length, answer);
            if answer.number == 0 {
                own = bytes[..answer.count].to_vec();
                let differ =
                    |why: &str| Difference::new(image, &format!("file: {why}"), answer, "");
                keeps_its_word(engine, image, &own).map_err(differ)?;
                if own != filed.image() {
                    return Err(differ("walking the bodies comes to another form, by both"));
                }
            }
        }
        self.runs.try_list(engine, (image, &own), random)?;
        Ok(own)
    }

    /// The design under several numberings, all with one form.
    fn numberings(
        &mut self,
        engine: &Engine,
        table: &Table,
        random: &mut Random,
    ) -> Result<(), Difference> {
        let form = self.file(engine, &table.image(), random)?;
        let in_form = Table::open(&form).expect("an accepted image");
        for other in [
            renumbered(table, random),
            renumbered(table, random),
            // Few numbers that differ from the form's.
            renumbered(&in_form, random),
            in_form,
        ] {
            let image = other.image();
            if self.file(engine, &image, random)? != form {
                let what = "file: another form under other numbers";
                return Err(Difference::new(&image, what, "", ""));
            }
        }
        Ok(())
    }
}

/// By the engine alone.
fn keeps_its_word(engine: &Engine, image: &[u8], form: &[u8]) -> Result<(), &'static str> {
    if (engine.check)(form) != Answer::accepted(0) {
        return Err("check refuses the form");
    }
    let mut again = vec![0xAA; form.len()];
    if (engine.file)(form, &mut again) != Answer::accepted(form.len()) || again != form {
        return Err("the form has another form");
    }
    let table = |bytes| Table::open(bytes).expect("an accepted image");
    if !table(image).is_renumbered(&table(form)) {
        return Err("the form is another design");
    }
    Ok(())
}

/// Empty images as a C host may lend them, and no area.
#[cfg(feature = "library")]
pub fn about_null() -> Result<(), Difference> {
    use crate::answer::Which;
    use crate::library;
    let (given, expected) = (library::file_null(), reference::file(&[], &mut []));
    if given != expected {
        let what = "file of null into null, lengths 0";
        return Err(Difference::new(&[], what, given, expected));
    }
    for given in library::earlier_null(&designs::lease().image()) {
        if given != Which::REFUSED {
            let what = "earlier of null with length 0";
            return Err(Difference::new(&[], what, given, Which::REFUSED));
        }
    }
    Ok(())
}

/// What needs no chance: areas of every length, and all pairs, of the worked designs; the largest and the deepest.
pub fn fixed_images(engine: &Engine, tallies: &mut Tallies) -> Result<(), Difference> {
    let mut random = Random::new(0);
    for table in designs::worked() {
        let image = table.image();
        for length in 0..image.len() + LONGER {
            let area = Area::new(length, &mut random);
            tallies.compare(engine, &image, length, area)?;
        }
    }
    tallies.pairs.worked(engine)?;
    for table in [designs::largest(), designs::nested_commands(62)] {
        tallies.numberings(engine, &table, &mut random)?;
    }
    Ok(())
}

/// Random designs under several numberings, pairs of them and of others like them, and spoiled ones.
pub fn filings_of_seed(
    engine: &Engine,
    seed: u64,
    tallies: &mut Tallies,
) -> Result<(), Difference> {
    let mut random = Random::new(seed);
    let size = Size::random(&mut random);
    let any = any_design(&mut random, size);
    tallies.numberings(engine, &any, &mut random)?;
    tallies.pairs.of_design(engine, &any, &mut random)?;
    for _ in 0..2 {
        let table = lively(&mut random);
        tallies.numberings(engine, &table, &mut random)?;
        let other = renumbered(&table, &mut random);
        tallies.pairs.of_design(engine, &other, &mut random)?;
    }
    let table = with_spares(&lively(&mut random), &mut random);
    tallies.numberings(engine, &table, &mut random)?;
    for &number in faults::NUMBERS {
        let spoiled = faults::spoiled(&table, &[number], &mut random);
        tallies.file(engine, &spoiled.image(), &mut random)?;
    }
    let broken = faults::spoil_directory(&table, &mut random);
    tallies.file(engine, &broken, &mut random)?;
    let damaged = faults::damaged(table.image(), &mut random);
    tallies.file(engine, &damaged, &mut random).map(|_| ())
}

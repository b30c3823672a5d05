//! Random designs raised by both: answers and all bytes of the area and its guards are compared. What
//! request E6 says of a result is also asked of the library itself.

use super::areas::Area;
use super::difference::Difference;
use super::raised::{note_raised, Raised};
use super::tally::Tally;
use crate::generate::random::Random;
use crate::generate::{chained, design, faults, lowered, parameterised, Size};
use crate::reference::image::{Image, INNER};
use crate::{designs, library, reference};

/// The numbers that raising never gives: the flow is not asked, and no port, run, register, journal,
/// trace or pruning is.
const NEVER: &[u32] = &[10, 11, 12, 13, 15, 17, 21, 22, 23, 24];

#[derive(Default)]
pub struct Tallies(Tally);

impl Tallies {
    pub fn print(&self) {
        self.0.print("raise");
    }

    pub fn missing(&self) -> Vec<String> {
        let missing = self.0.missing(NEVER).into_iter();
        missing.map(|what| format!("raise: {what}")).collect()
    }

    /// Raises one image by both, into areas of the same bytes.
    fn compare(&mut self, image: &[u8], length: usize, area: Area) -> Result<(), Difference> {
        let lent = image.to_vec().into_boxed_slice();
        let mut given_area = area.clone();
        let mut expected_area = area;
        let given = library::raise(&lent, given_area.lend(length));
        let expected = reference::raise(image, expected_area.lend(length));
        let what = format!("raise into an area of {length} bytes");
        let difference = |what: String| Difference::new(image, &what, given, expected);
        if given != expected {
            return Err(difference(what));
        }
        if given_area != expected_area || *lent != *image {
            let what = format!("{what}: other bytes in the area, a guard or the image");
            return Err(difference(what));
        }
        let out = given_area.lend(length);
        if given.number == 0 {
            keeps_its_word(image, out).map_err(|why| difference(format!("{what}: {why}")))?;
        }
        self.0.add(expected, image.len());
        if expected.number == 20 {
            note_parameters(&mut self.0, image, length);
        }
        let raised = Raised { image, out };
        note_raised(&mut self.0, &raised, expected)
            .map_err(|why| difference(format!("{what}: {why}, by both")))
    }

    /// Into an area of the right length, and sometimes into one of another.
    fn raise(&mut self, image: &[u8], random: &mut Random) -> Result<(), Difference> {
        let right = image.len();
        if random.percent(12) {
            let length = match random.below(6) {
                0 => 0,
                1 => random.below(right.max(1)),
                2 => right + random.between(1, 32),
                3 | 4 => right + 1,
                _ => right.saturating_sub(1),
            };
            self.compare(image, length, Area::new(right, random))?;
        }
        self.compare(image, right, Area::new(right, random))
    }
}

/// 20 comes before 14, and whether or not the flow rules are kept.
fn note_parameters(tally: &mut Tally, image: &[u8], length: usize) {
    let accepted = reference::check(image).number == 0;
    tally.note("20 where 14 would follow", length != image.len());
    tally.note("20, an image that check accepts", accepted);
    tally.note("20, an image that the flow rules refuse", !accepted);
}

/// By the library alone: accepted, raised and not lowered, all else as it was, and nothing more to raise.
fn keeps_its_word(image: &[u8], out: &[u8]) -> Result<(), &'static str> {
    if library::check(out).number != 0 {
        return Err("check refuses the result");
    }
    let mut again = vec![0xAA; out.len()];
    if library::raise(out, &mut again).number != 0 || again != out {
        return Err("raising the result changes it again");
    }
    if library::check(image).number == 0 && out != image {
        return Err("an accepted image does not come back unchanged");
    }
    let before = Image::open(image).expect("an image with good sections");
    let after = Image::open(out).map_err(|_| "other sections")?;
    let rows: Vec<u16> = before.rows().collect();
    let mut put_back = Vec::new();
    for (old, new) in before.registers().zip(after.registers()) {
        let flows = rows[usize::from(old.label)] >> new.label & 1 == 1;
        if old.label != new.label && (old.kind != INNER || !flows) {
            return Err("a label of a port is changed, or one is lowered");
        }
        put_back.push(old.label);
    }
    if reference::with_labels(out, &put_back) != image {
        return Err("something else than labels of registers is changed");
    }
    Ok(())
}

/// The raisings that need no chance.
pub fn fixed_images(tallies: &mut Tallies) -> Result<(), Difference> {
    let (given, expected) = (library::raise_null(), reference::raise(&[], &mut []));
    if given != expected {
        let what = "raise of null into null, lengths 0";
        return Err(Difference::new(&[], what, given, expected));
    }
    let mut random = Random::new(0);
    for table in designs::worked() {
        tallies.raise(&table.image(), &mut random)?;
        for _ in 0..4 {
            let table = lowered(&table, &mut random);
            tallies.raise(&table.image(), &mut random)?;
        }
    }
    let longest = designs::longest_chain().image();
    tallies.raise(&longest, &mut random)
}

/// Designs of chains, one random design, and others made from it.
pub fn raisings_of_seed(seed: u64, tallies: &mut Tallies) -> Result<(), Difference> {
    let mut random = Random::new(seed);
    for _ in 0..8 {
        let chained = chained(&mut random);
        tallies.raise(&chained.image(), &mut random)?;
    }
    let size = Size::random(&mut random);
    let table = design(&mut random, size);
    tallies.raise(&table.image(), &mut random)?;
    for _ in 0..3 {
        let low = lowered(&table, &mut random);
        tallies.raise(&low.image(), &mut random)?;
        let leaking = faults::leaking(&low, &mut random);
        tallies.raise(&leaking.image(), &mut random)?;
        let number = *random.pick(faults::NUMBERS);
        let spoiled = faults::spoiled(&low, &[number], &mut random);
        tallies.raise(&spoiled.image(), &mut random)?;
    }
    // 20, and behind it in areas of another length, and beside faults of the image.
    let size = Size::random(&mut random);
    let with_parameters = parameterised(&mut random, size);
    tallies.raise(&with_parameters.image(), &mut random)?;
    for number in [9, 10, 11, 12, 16, 19] {
        let spoiled = faults::spoiled(&with_parameters, &[number], &mut random);
        tallies.raise(&spoiled.image(), &mut random)?;
    }
    let broken = faults::spoil_directory(&table, &mut random);
    tallies.raise(&broken, &mut random)?;
    let damaged = faults::damaged(table.image(), &mut random);
    tallies.raise(&damaged, &mut random)
}

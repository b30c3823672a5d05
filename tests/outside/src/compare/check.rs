//! Random images, judged by both: by check, and a share of them by the calls that tell the lengths
//! of the areas.

use super::children::note_children;
use super::difference::Difference;
use super::kinds::note_kind;
use super::parameters::note_parameters;
use super::reading::note_reading;
use super::reasons::note_register;
use super::tally::Tally;
use crate::answer::Answer;
use crate::generate::random::Random;
use crate::generate::{any_design, faults, Size};
use crate::{designs, library, reference};

/// The lengths are asked for on the images of one seed in so many: each of the calls takes as long
/// as check, which is to judge the most images.
const LENGTHS_EVERY: u64 = 4;

/// A call that takes an image alone, by both.
struct Call {
    name: &'static str,
    library: fn(&[u8]) -> Answer,
    reference: fn(&[u8]) -> Answer,
}

/// Check stands first.
const CALLS: [Call; 3] = [
    Call {
        name: "check",
        library: library::check,
        reference: reference::check,
    },
    Call {
        name: "registers length",
        library: library::registers_length,
        reference: reference::registers_length,
    },
    Call {
        name: "targets length",
        library: library::targets_length,
        reference: reference::targets_length,
    },
];

/// The tallies of the three calls.
#[derive(Default)]
pub struct Tallies([Tally; CALLS.len()]);

impl Tallies {
    pub fn print(&self) {
        for (call, tally) in CALLS.iter().zip(&self.0) {
            tally.print(call.name);
        }
    }

    /// What each call should have met and did not: acceptance and every image refusal.
    pub fn missing(&self) -> Vec<String> {
        let mut missing = Vec::new();
        for (call, tally) in CALLS.iter().zip(&self.0) {
            // These take no area, no register, no value, no cycle count and no journal, and raise and prune nothing.
            for what in tally.missing(&[13, 14, 15, 17, 18, 20, 21, 22, 23, 24]) {
                missing.push(format!("{}: {what}", call.name));
            }
        }
        missing
    }
}

/// The first calls of the list, made on one image after the other.
struct Judges<'a> {
    calls: &'static [Call],
    tallies: &'a mut Tallies,
}

impl Judges<'_> {
    /// Judges one image by both; it stands in an allocation of exactly its length.
    fn compare(&mut self, image: Vec<u8>) -> Result<(), Difference> {
        let lent: Box<[u8]> = image.clone().into_boxed_slice();
        for (number, call) in self.calls.iter().enumerate() {
            let tally = &mut self.tallies.0[number];
            let expected = (call.reference)(&image);
            let given = (call.library)(&lent);
            if given != expected {
                return Err(Difference::new(&image, call.name, given, expected));
            }
            if lent[..] != image[..] {
                let changed = "changed the image";
                return Err(Difference::new(&image, call.name, changed, ""));
            }
            tally.add(expected, image.len());
            note_register(tally, &image, expected);
            note_kind(tally, &image, expected);
            note_children(tally, &image, expected);
            note_reading(tally, &image, expected);
            // By check alone: it takes long, and the other calls judge the same.
            if number == 0 {
                note_parameters(tally, &image, expected)
                    .map_err(|why| Difference::new(&image, &why, given, expected))?;
            }
        }
        Ok(())
    }
}

/// The images that need no chance, judged by all calls.
pub fn fixed_images(tallies: &mut Tallies) -> Result<(), Difference> {
    for (call, given) in CALLS.iter().zip(library::about_null()) {
        let expected = (call.reference)(&[]);
        if given != expected {
            let what = format!("{} of null, length 0", call.name);
            return Err(Difference::new(&[], &what, given, expected));
        }
    }
    let mut judges = Judges {
        calls: &CALLS,
        tallies,
    };
    for table in designs::worked() {
        let image = table.image();
        for length in 0..image.len() {
            judges.compare(image[..length].to_vec())?;
        }
        for place in 0..image.len() {
            for byte in [
                0, 1, 2, 3, 4, 5, 6, 8, 9, 10, 11, 12, 13, 15, 16, 17, 18, 31, 32, 33, 63, 64, 65,
                66, 128, 255,
            ] {
                let mut changed = image.clone();
                changed[place] = byte;
                judges.compare(changed)?;
            }
        }
        judges.compare(image)?;
    }
    Ok(())
}

/// One random design and many images made from it.
pub fn images_of_seed(seed: u64, tallies: &mut Tallies) -> Result<(), Difference> {
    let lengths_too = seed.is_multiple_of(LENGTHS_EVERY);
    let mut judges = Judges {
        calls: if lengths_too { &CALLS } else { &CALLS[..1] },
        tallies,
    };
    let mut random = Random::new(seed);
    let size = Size::random(&mut random);
    let table = any_design(&mut random, size);
    let image = table.image();
    let made = reference::check(&image);
    if made.number != 0 {
        let what = "the generator means this design to be accepted";
        return Err(Difference::new(&image, what, "(not asked)", made));
    }
    judges.compare(image.clone())?;
    let spoiled = |numbers: &[u32], random: &mut Random| {
        let table = faults::spoiled(&table, numbers, random);
        table.image()
    };
    for &number in faults::NUMBERS {
        for _ in 0..3 {
            judges.compare(spoiled(&[number], &mut random))?;
        }
        judges.compare(spoiled(&[number; 3], &mut random))?;
    }
    // 16 and 19 are judged where their numbers would not have them.
    for other in [8, 9, 10, 11, 12] {
        judges.compare(spoiled(&[16, other], &mut random))?;
        judges.compare(spoiled(&[19, other], &mut random))?;
    }
    for numbers in [&[16, 19][..], &[4, 19], &[5, 19], &[19, 9, 10]] {
        judges.compare(spoiled(numbers, &mut random))?;
    }
    for _ in 0..6 {
        judges.compare(faults::leaking(&table, &mut random).image())?;
    }
    for _ in 0..10 {
        let one = *random.pick(faults::NUMBERS);
        let other = *random.pick(faults::NUMBERS);
        judges.compare(spoiled(&[one, other], &mut random))?;
    }
    for _ in 0..4 {
        judges.compare(faults::spoil_directory(&table, &mut random))?;
    }
    for _ in 0..15 {
        judges.compare(faults::damaged(image.clone(), &mut random))?;
    }
    for _ in 0..3 {
        judges.compare(faults::resized(image.clone(), &mut random))?;
        judges.compare(faults::senseless(&mut random))?;
    }
    Ok(())
}

//! Run: cycles in a second in the longest runs, and the time of a run of one cycle.

use super::measure::{in_turns, Call};
use super::subjects::{self, accepted};
use crate::answer::Answer;
use crate::designs::{lease, one_group, smallest, two_groups};
use crate::generate::random::Random;
use crate::generate::{design, full_of_parameters, Size};
use crate::table::Table;
use crate::{library, reference};

const LONGEST: u32 = 1_000_000;

/// The seed of a largest design with long cycles and walks, found by trying some hundreds.
const LARGEST_SEED: u64 = 40;

/// The seed of one full of parameters, found in the same way.
const PARAMETERS_SEED: u64 = 117;

pub fn print() {
    let largest = longest_cycles();
    let parameters = longest_with_parameters();
    println!("runs of 1,000,000 cycles: medians");
    println!("design        library cycles/s  reference cycles/s  library/reference time");
    for (name, table, rounds) in [
        ("lease", lease(), 5),
        ("two groups", two_groups(), 5),
        ("one group", one_group(), 5),
        // Seconds each.
        ("largest", largest.clone(), 1),
        ("parameters", parameters.clone(), 1),
    ] {
        let (library, reference) = time(&[table], LONGEST, rounds);
        println!(
            "{name:<12} {:>17.0} {:>19.0} {:>23.2}",
            f64::from(LONGEST) / library,
            f64::from(LONGEST) / reference,
            library / reference
        );
    }
    println!("runs of one cycle, image checks included: medians");
    println!("design          library µs  reference µs  library/reference");
    for (name, tables) in [
        ("smallest", vec![smallest()]),
        ("largest", vec![largest]),
        // A box that does other work between two cycles meets its design anew each time.
        ("16 largest", sixteen_largest()),
        ("parameters", vec![parameters]),
        ("16 of these", subjects::full_of_parameters()),
    ] {
        let (library, reference) = time(&tables, 1, 31);
        println!(
            "{name:<12} {:>13.2} {:>13.2} {:>18.2}",
            library * 1e6,
            reference * 1e6,
            library / reference
        );
    }
}

/// A design of the largest size with long cycles.
pub fn longest_cycles() -> Table {
    design(&mut Random::new(LARGEST_SEED), Size::LARGEST)
}

/// The same with parameters.
pub fn longest_with_parameters() -> Table {
    full_of_parameters(&mut Random::new(PARAMETERS_SEED), Size::LARGEST)
}

/// Designs of the largest size, to be taken in turns.
pub fn sixteen_largest() -> Vec<Table> {
    (1..=16)
        .map(|seed| design(&mut Random::new(seed), Size::LARGEST))
        .collect()
}

/// The medians of the library and of the reference, in seconds for each run, over designs in turns.
fn time(tables: &[Table], cycles: u32, rounds: usize) -> (f64, f64) {
    let mut calls = [
        running(tables, cycles, library::run),
        running(tables, cycles, reference::run),
    ];
    let times = in_turns(rounds, &mut calls);
    (times[0], times[1])
}

type Run = fn(&[u8], &mut [u8], &mut [u8], u32) -> Answer;

/// A design and its areas, as a host holds them.
pub struct Site {
    pub image: Vec<u8>,
    pub registers: Vec<u8>,
    pub targets: Vec<u8>,
}

impl Site {
    pub fn reset(table: &Table) -> Self {
        let image = accepted(table);
        let (registers, targets) = table.areas();
        let (mut registers, mut targets) = (vec![0; registers], vec![0; targets]);
        reference::reset(&image, &mut registers, &mut targets);
        Self {
            image,
            registers,
            targets,
        }
    }
}

/// Runs one design after the other, on and on from a reset.
pub fn running<'a>(tables: &[Table], cycles: u32, run: Run) -> Call<'a> {
    let mut sites: Vec<Site> = tables.iter().map(Site::reset).collect();
    let mut next = 0;
    Box::new(move || {
        let at = &mut sites[next];
        let answer = run(&at.image, &mut at.registers, &mut at.targets, cycles);
        assert_eq!(answer, Answer::accepted(cycles as usize));
        next = (next + 1) % sites.len();
    })
}

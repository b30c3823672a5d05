//! Reset: its time, the check of the image included.

use super::measure::{in_turns, Call};
use super::run::sixteen_largest;
use super::subjects::{accepted, full_of_parameters};
use crate::answer::Answer;
use crate::designs::lease;
use crate::table::Table;
use crate::{library, reference};

const ROUNDS: usize = 31;

pub fn print() {
    let subjects = [
        ("lease", vec![lease()]),
        ("16 largest", sixteen_largest()),
        ("parameters", full_of_parameters()),
    ];
    let mut calls = Vec::new();
    for (_, tables) in &subjects {
        calls.push(resetting(tables, library::reset));
        calls.push(resetting(tables, reference::reset));
    }
    let times = in_turns(ROUNDS, &mut calls);
    println!("reset: medians");
    println!("design          library µs  reference µs  library/reference");
    for ((name, _), times) in subjects.iter().zip(times.chunks(2)) {
        let (library, reference) = (times[0], times[1]);
        println!(
            "{name:<12} {:>13.2} {:>13.2} {:>18.2}",
            library * 1e6,
            reference * 1e6,
            library / reference
        );
    }
}

type Reset = fn(&[u8], &mut [u8], &mut [u8]) -> Answer;

/// Resets one design after the other, each in its own areas.
fn resetting(tables: &[Table], reset: Reset) -> Call<'_> {
    let images: Vec<Vec<u8>> = tables.iter().map(accepted).collect();
    let mut areas: Vec<(Vec<u8>, Vec<u8>)> = (tables.iter())
        .map(|table| {
            let (registers, targets) = table.areas();
            (vec![0; registers], vec![0; targets])
        })
        .collect();
    let mut next = 0;
    Box::new(move || {
        let (registers, targets) = &mut areas[next];
        let answer = reset(&images[next], registers, targets);
        assert_eq!(answer, Answer::accepted(0));
        next = (next + 1) % images.len();
    })
}

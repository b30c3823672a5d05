//! Journalled runs beside plain ones of the same designs, and steps back.

use super::measure::{in_turns, Call};
use super::run::{longest_cycles, Site};
use crate::answer::Answer;
use crate::compare::engine::Journalled;
use crate::designs::{lease, two_groups};
use crate::reference::limits::COUNT_BYTES;
use crate::table::Table;
use crate::{library, reference};

const CYCLES: u32 = 10_000;

pub fn print() {
    let subjects = [
        ("lease", lease()),
        ("two groups", two_groups()),
        ("largest", longest_cycles()),
    ];
    println!("runs of 10,000 cycles, plain and journalled: medians");
    println!(
        "design      library cycles/s  journalled  journalled/plain time  reference cycles/s  \
         journalled  library/reference time, journalled"
    );
    for (name, table) in &subjects {
        let mut calls = [
            running(table, library::run),
            running(table, reference::run),
            journalling(table, library::run_journalled),
            journalling(table, reference::run_journalled),
        ];
        let times = in_turns(11, &mut calls);
        let rate = |time: f64| f64::from(CYCLES) / time;
        println!(
            "{name:<10} {:>17.0} {:>11.0} {:>22.2} {:>19.0} {:>11.0} {:>31.2}",
            rate(times[0]),
            rate(times[2]),
            times[2] / times[0],
            rate(times[1]),
            rate(times[3]),
            times[2] / times[3],
        );
    }
    print_steps(&subjects);
}

fn print_steps(subjects: &[(&str, Table)]) {
    println!("steps back by 5,000 of 10,000 cycles, image checks included: medians");
    println!("design          library µs  reference µs  library/reference");
    for (name, table) in subjects {
        let mut calls = [
            going_back(table, library::step_back),
            going_back(table, reference::step_back),
        ];
        let times = in_turns(31, &mut calls);
        println!(
            "{name:<12} {:>13.2} {:>13.2} {:>18.2}",
            times[0] * 1e6,
            times[1] * 1e6,
            times[0] / times[1]
        );
    }
}

type Run = fn(&[u8], &mut [u8], &mut [u8], u32) -> Answer;

/// On and on from a reset.
fn running<'a>(table: &Table, run: Run) -> Call<'a> {
    let mut at = Site::reset(table);
    Box::new(move || {
        let answer = run(&at.image, &mut at.registers, &mut at.targets, CYCLES);
        assert_eq!(answer, Answer::accepted(CYCLES as usize));
    })
}

/// A journal for all cycles, as long as it has to be.
fn journal(at: &Site) -> Vec<u8> {
    let state = at.registers.len() + at.targets.len();
    vec![0; COUNT_BYTES + CYCLES as usize * state]
}

/// On and on from a reset, each time with an empty journal.
fn journalling<'a>(table: &Table, run: Journalled) -> Call<'a> {
    let mut at = Site::reset(table);
    let mut journal = journal(&at);
    Box::new(move || {
        journal[..COUNT_BYTES].fill(0);
        let Site {
            image,
            registers,
            targets,
        } = &mut at;
        let answer = run(image, registers, targets, &mut journal, CYCLES);
        assert_eq!(answer, Answer::accepted(CYCLES as usize));
    })
}

/// From the same full journal each time.
fn going_back<'a>(table: &Table, back: Journalled) -> Call<'a> {
    let mut at = Site::reset(table);
    let mut journal = journal(&at);
    let Site {
        image,
        registers,
        targets,
    } = &mut at;
    reference::run_journalled(image, registers, targets, &mut journal, CYCLES);
    Box::new(move || {
        journal[..COUNT_BYTES].copy_from_slice(&CYCLES.to_le_bytes());
        let Site {
            image,
            registers,
            targets,
        } = &mut at;
        let answer = back(image, registers, targets, &mut journal, CYCLES / 2);
        assert_eq!(answer, Answer::accepted(CYCLES as usize / 2));
    })
}

//! Gate tables: the time of a check for each byte, and cycles in a second.

use super::measure::{in_turns, Call};
use crate::answer::Answer;
use crate::designs::gates::counter;
use crate::generate::gates::{gate_area, gate_inputs, gate_table, LARGEST_GATES};
use crate::generate::random::Random;
use crate::table::gates::GateTable;
use crate::{library, reference};
use std::hint::black_box;

const ROUNDS: usize = 41;

/// So many tables of one size, taken in turns, as of designs.
const TABLES: u64 = 16;

struct Subject {
    name: &'static str,
    tables: Vec<GateTable>,
}

impl Subject {
    /// All tables of a subject have the same length.
    fn bytes(&self) -> usize {
        self.tables[0].bytes().len()
    }
}

/// The counter, then tables of a quarter and of all of each count.
fn subjects() -> Vec<Subject> {
    let part = |name, quarters: usize| Subject {
        name,
        tables: (1..=TABLES)
            .map(|seed| {
                let counts = LARGEST_GATES.map(|most| most * quarters / 4);
                gate_table(&mut Random::new(seed), counts)
            })
            .collect(),
    };
    vec![
        Subject {
            name: "counter",
            tables: vec![counter()],
        },
        part("quarter", 1),
        part("largest", 4),
    ]
}

pub fn print() {
    let subjects = subjects();
    print_checks(&subjects);
    print_cycles(&subjects);
}

fn print_checks(subjects: &[Subject]) {
    let mut calls = Vec::new();
    for subject in subjects {
        calls.push(checking(subject, library::gates_check));
        calls.push(checking(subject, reference::gates::check));
    }
    let times = in_turns(ROUNDS, &mut calls);
    println!("gates check: medians; all tables, library and reference in turns");
    println!("table       bytes  library µs  reference µs  library ns/byte  library/reference");
    let mut per_byte = Vec::new();
    for (subject, times) in subjects.iter().zip(times.chunks(2)) {
        let (library, reference) = (times[0], times[1]);
        let bytes = subject.bytes() as f64;
        println!(
            "{:<10} {:>6} {:>11.2} {:>13.2} {:>16.2} {:>18.2}",
            subject.name,
            subject.bytes(),
            library * 1e6,
            reference * 1e6,
            library * 1e9 / bytes,
            library / reference,
        );
        per_byte.push(library / bytes);
    }
    let (quarter, largest) = (per_byte[1], per_byte[2]);
    println!(
        "time for a byte, largest to quarter: library {:.2}",
        largest / quarter
    );
}

fn checking(subject: &Subject, check: fn(&[u8]) -> Answer) -> Call<'_> {
    let tables: Vec<Vec<u8>> = subject.tables.iter().map(GateTable::bytes).collect();
    let mut next = 0;
    Box::new(move || {
        black_box(check(black_box(&tables[next])));
        next = (next + 1) % tables.len();
    })
}

fn print_cycles(subjects: &[Subject]) {
    let mut calls = Vec::new();
    for subject in subjects {
        calls.push(cycling(subject, library::gates_cycle));
        calls.push(cycling(subject, reference::gates::cycle));
    }
    let times = in_turns(ROUNDS, &mut calls);
    println!("gates cycle, the check of the table included: medians");
    println!("table       bytes  library cycles/s  reference cycles/s  library/reference time");
    for (subject, times) in subjects.iter().zip(times.chunks(2)) {
        let (library, reference) = (times[0], times[1]);
        println!(
            "{:<10} {:>6} {:>17.0} {:>19.0} {:>23.2}",
            subject.name,
            subject.bytes(),
            1.0 / library,
            1.0 / reference,
            library / reference,
        );
    }
}

/// A table with its area, and inputs for some cycles.
struct Site {
    table: Vec<u8>,
    inputs: Vec<Vec<u8>>,
    flipflops: Vec<u8>,
}

impl Site {
    fn new(table: &GateTable) -> Site {
        let mut random = Random::new(7);
        Site {
            table: table.bytes(),
            inputs: (0..8)
                .map(|_| gate_inputs(&mut random, table.inputs.len()))
                .collect(),
            flipflops: gate_area(&mut random, table),
        }
    }
}

type Cycle = fn(&[u8], &[u8], &mut [u8]) -> Answer;

/// Runs one table after the other, each on from its last cycle.
fn cycling(subject: &Subject, cycle: Cycle) -> Call<'_> {
    let mut sites: Vec<Site> = subject.tables.iter().map(Site::new).collect();
    let mut next = 0;
    Box::new(move || {
        let count = sites.len();
        let site = &mut sites[next % count];
        let inputs = &site.inputs[next / count % site.inputs.len()];
        let answer = cycle(&site.table, inputs, &mut site.flipflops);
        assert_eq!(answer, Answer::accepted(0));
        next += 1;
    })
}

//! Replays beside runs of as many cycles, and what records add to them. All records write the reset values of
//! the ports, so that all rows of a design run the same cycles.

use super::measure::{in_turns, Call};
use super::run::{longest_cycles, longest_with_parameters, running, Site};
use crate::compare::engine::Replay;
use crate::designs::{lease, one_group, two_groups};
use crate::reference::image::PORT;
use crate::reference::limits::MOST_CYCLES;
use crate::table::Table;
use crate::trace::Record;
use crate::{library, reference};

/// Replays of the longest sort in a month of readings: 260 million cycles.
const MONTH: f64 = 260.0;

pub fn print() {
    let short = [
        ("lease", lease()),
        ("two groups", two_groups()),
        ("one group", one_group()),
    ];
    println!("replays of 1,000,000 cycles, a record before every 100th and before each, and runs: medians");
    println!(
        "design     library run cycles/s  every 100th  time to run's  each cycle  time to run's  a month, s  \
         reference cycles/s  library/reference time"
    );
    for (name, table) in &short {
        print_rates(name, table, 5);
    }
    // Seconds each.
    print_rates("largest", &longest_cycles(), 3);
    print_rates("parameters", &longest_with_parameters(), 3);

    println!("what records add to replays of 1,000,000 cycles: medians");
    println!(
        "design     none, ms  1,000,000 add, ms  2,000,000  4,000,000  ns each  twice  four times"
    );
    for (name, table) in &short {
        print_parts(name, table);
    }
    println!("all records before one cycle: medians");
    println!("design     250,000, ms  500,000  1,000,000  ns each  twice  four times");
    for (name, table) in &short {
        print_at_once(name, table);
    }
}

/// Cycles in a second: the month is of records before every 100th cycle, and so is the reference's column.
fn print_rates(name: &str, table: &Table, rounds: usize) {
    let sparse = trace(table, (0..MOST_CYCLES).step_by(100));
    let dense = trace(table, 0..MOST_CYCLES);
    let plain = [table.clone()];
    let times = in_turns(
        rounds,
        &mut [
            running(&plain, MOST_CYCLES, library::run),
            replaying(table, library::replay, &sparse, MOST_CYCLES),
            replaying(table, library::replay, &dense, MOST_CYCLES),
            replaying(table, reference::replay, &sparse, MOST_CYCLES),
        ],
    );
    let rate = |time: f64| f64::from(MOST_CYCLES) / time;
    println!(
        "{name:<10} {:>20.0} {:>12.0} {:>14.2} {:>11.0} {:>14.2} {:>11.1} {:>19.0} {:>23.2}",
        rate(times[0]),
        rate(times[1]),
        times[1] / times[0],
        rate(times[2]),
        times[2] / times[0],
        MONTH * times[1],
        rate(times[3]),
        times[1] / times[3],
    );
}

/// The time of records alone, which is twice for twice as many.
fn print_parts(name: &str, table: &Table) {
    let traces = [0, 1, 2, 4].map(|records| {
        let cycles = (0..MOST_CYCLES).flat_map(|cycle| (0..records).map(move |_| cycle));
        trace(table, cycles)
    });
    let times = of_traces(table, &traces, MOST_CYCLES);
    let part = |number: usize| times[number] - times[0];
    println!(
        "{name:<10} {:>8.1} {:>18.1} {:>10.1} {:>10.1} {:>8.1} {:>6.2} {:>11.2}",
        times[0] * 1e3,
        part(1) * 1e3,
        part(2) * 1e3,
        part(3) * 1e3,
        part(3) / 4e6 * 1e9,
        part(2) / part(1),
        part(3) / part(1),
    );
}

fn print_at_once(name: &str, table: &Table) {
    let traces = [250_000, 500_000, 1_000_000].map(|count| trace(table, (0..count).map(|_| 0)));
    let times = of_traces(table, &traces, 1);
    println!(
        "{name:<10} {:>11.2} {:>8.2} {:>10.2} {:>8.1} {:>6.2} {:>11.2}",
        times[0] * 1e3,
        times[1] * 1e3,
        times[2] * 1e3,
        times[2] / 1e6 * 1e9,
        times[1] / times[0],
        times[2] / times[0],
    );
}

fn of_traces(table: &Table, traces: &[Vec<Record>], cycles: u32) -> Vec<f64> {
    let calls = traces.iter();
    let calls = calls.map(|trace| replaying(table, library::replay, trace, cycles));
    in_turns(7, &mut calls.collect::<Vec<Call>>())
}

/// One record for each of these cycles, the ports in turns.
fn trace(table: &Table, cycles: impl Iterator<Item = u32>) -> Vec<Record> {
    let ports = table.of_kind(PORT);
    assert!(!ports.is_empty(), "a design with ports");
    let records = cycles.zip(ports.iter().cycle());
    records
        .map(|(cycle, &port)| {
            let value = table.registers[usize::from(port)].reset;
            Record::new(cycle, port.into(), value)
        })
        .collect()
}

/// On and on from a reset, with the same trace each time.
fn replaying<'a>(table: &Table, replay: Replay, trace: &'a [Record], cycles: u32) -> Call<'a> {
    let mut at = Site::reset(table);
    Box::new(move || {
        let Site {
            image,
            registers,
            targets,
        } = &mut at;
        let answer = replay(image, registers, targets, trace, cycles);
        assert_eq!(answer.number, 0);
    })
}

//! The comparison of replays finds each mistake with which request E10 must not be met.

use crate::answer::Answer;
use crate::compare::engine::{Engine, Replay, REFERENCE};
use crate::compare::replays::{replays_of_seed, Tallies};
use crate::reference;
use crate::reference::image::{Image, Register, PORT};
use crate::reference::limits::MOST_CYCLES;
use crate::trace::Record;

pub fn engine(replay: Replay) -> Engine {
    Engine {
        replay,
        ..REFERENCE
    }
}

#[test]
fn mistakes_are_found() {
    let mistakes: [(&str, Replay); 15] = [
        ("the earlier of two is kept", keeps_the_earlier),
        ("records are applied after their cycle", applies_after),
        ("all records are applied first", applies_all_first),
        ("13 comes before 23", no_port_before_order),
        ("the place of 13 is the register", place_is_the_register),
        ("superseded are counted across ports", counts_across_ports),
        ("superseded are counted across cycles", counts_across_cycles),
        ("three for one port supersede one", counts_ports),
        ("records at n are accepted", accepts_n),
        ("all falls come before what reaches n", falls_first),
        ("13 and 17 are two passes", two_passes),
        ("superseded values are not judged", judges_the_latest),
        ("23 comes before 15", order_before_cycles),
        ("a register has 16 bits", cuts_registers),
        ("records before a bad one are applied", applies_good_ones),
    ];
    for (what, replay) in mistakes {
        let engine = engine(replay);
        let mut tallies = Tallies::default();
        let mut seeds = 1..=300;
        let found = seeds.any(|seed| replays_of_seed(&engine, seed, &mut tallies).is_err());
        assert!(found, "{what}");
    }
}

/// The reference's answer on copies.
pub fn judged(
    image: &[u8],
    registers: &[u8],
    targets: &[u8],
    trace: &[Record],
    cycles: u32,
) -> Answer {
    let (mut registers, mut targets) = (registers.to_vec(), targets.to_vec());
    reference::replay(image, &mut registers, &mut targets, trace, cycles)
}

pub fn write(image: &[u8], registers: &mut [u8], record: &Record) -> Answer {
    reference::write_port(image, registers, record.register, record.value)
}

/// The lowest record that names no port.
fn no_port(image: &[u8], trace: &[Record]) -> Option<usize> {
    let registers: Vec<Register> = Image::open(image).ok()?.registers().collect();
    let is_port = |register: &Register| register.kind == PORT;
    let named = |record: &Record| registers.get(record.register as usize);
    trace
        .iter()
        .position(|record| !named(record).is_some_and(is_port))
}

pub fn same_port(one: &Record, other: &Record) -> bool {
    (one.cycle, one.register) == (other.cycle, other.register)
}

fn keeps_the_earlier(
    image: &[u8],
    registers: &mut [u8],
    targets: &mut [u8],
    trace: &[Record],
    cycles: u32,
) -> Answer {
    let answer = judged(image, registers, targets, trace, cycles);
    let mut kept: Vec<Record> = Vec::new();
    for record in trace {
        if !kept.iter().any(|other| same_port(other, record)) {
            kept.push(*record);
        }
    }
    if answer.number == 0 {
        reference::replay(image, registers, targets, &kept, cycles);
    }
    answer
}

fn applies_after(
    image: &[u8],
    registers: &mut [u8],
    targets: &mut [u8],
    trace: &[Record],
    cycles: u32,
) -> Answer {
    let answer = judged(image, registers, targets, trace, cycles);
    if answer.number == 0 {
        for cycle in 0..cycles {
            reference::run(image, registers, targets, 1);
            for record in trace.iter().filter(|record| record.cycle == cycle) {
                write(image, registers, record);
            }
        }
    }
    answer
}

fn applies_all_first(
    image: &[u8],
    registers: &mut [u8],
    targets: &mut [u8],
    trace: &[Record],
    cycles: u32,
) -> Answer {
    let answer = judged(image, registers, targets, trace, cycles);
    if answer.number == 0 {
        for record in trace {
            write(image, registers, record);
        }
        reference::run(image, registers, targets, cycles);
    }
    answer
}

fn no_port_before_order(
    image: &[u8],
    registers: &mut [u8],
    targets: &mut [u8],
    trace: &[Record],
    cycles: u32,
) -> Answer {
    let answer = reference::replay(image, registers, targets, trace, cycles);
    match no_port(image, trace) {
        Some(place) if answer.number == 23 => Answer::refused(13, place),
        _ => answer,
    }
}

fn place_is_the_register(
    image: &[u8],
    registers: &mut [u8],
    targets: &mut [u8],
    trace: &[Record],
    cycles: u32,
) -> Answer {
    let answer = reference::replay(image, registers, targets, trace, cycles);
    match answer.number {
        13 => Answer::refused(13, trace[answer.place].register as usize),
        _ => answer,
    }
}

/// The reference's replay with another count.
fn counting(answer: Answer, superseded: usize) -> Answer {
    match answer.number {
        0 => Answer::accepted(superseded),
        _ => answer,
    }
}

fn counts_across_ports(
    image: &[u8],
    registers: &mut [u8],
    targets: &mut [u8],
    trace: &[Record],
    cycles: u32,
) -> Answer {
    let groups = trace.chunk_by(|one, other| one.cycle == other.cycle);
    let superseded = trace.len() - groups.count();
    counting(
        reference::replay(image, registers, targets, trace, cycles),
        superseded,
    )
}

fn counts_across_cycles(
    image: &[u8],
    registers: &mut [u8],
    targets: &mut [u8],
    trace: &[Record],
    cycles: u32,
) -> Answer {
    let mut ports: Vec<u32> = trace.iter().map(|record| record.register).collect();
    ports.sort_unstable();
    ports.dedup();
    let superseded = trace.len() - ports.len();
    counting(
        reference::replay(image, registers, targets, trace, cycles),
        superseded,
    )
}

fn counts_ports(
    image: &[u8],
    registers: &mut [u8],
    targets: &mut [u8],
    trace: &[Record],
    cycles: u32,
) -> Answer {
    let same = |record: &Record| {
        trace
            .iter()
            .filter(|other| same_port(other, record))
            .count()
    };
    let shares = trace.iter().filter(|record| same(record) > 1);
    let mut ports: Vec<(u32, u32)> = shares
        .map(|record| (record.cycle, record.register))
        .collect();
    ports.sort_unstable();
    ports.dedup();
    counting(
        reference::replay(image, registers, targets, trace, cycles),
        ports.len(),
    )
}

fn accepts_n(
    image: &[u8],
    registers: &mut [u8],
    targets: &mut [u8],
    trace: &[Record],
    cycles: u32,
) -> Answer {
    let end = trace.partition_point(|record| record.cycle < cycles);
    match trace[end..].iter().all(|record| record.cycle == cycles) {
        true => reference::replay(image, registers, targets, &trace[..end], cycles),
        false => reference::replay(image, registers, targets, trace, cycles),
    }
}

fn falls_first(
    image: &[u8],
    registers: &mut [u8],
    targets: &mut [u8],
    trace: &[Record],
    cycles: u32,
) -> Answer {
    let answer = reference::replay(image, registers, targets, trace, cycles);
    let falls = |pair: &[Record]| pair[1].cycle < pair[0].cycle;
    match trace.windows(2).position(falls) {
        Some(before) if answer.number == 23 => Answer::refused(23, before + 1),
        _ => answer,
    }
}

fn two_passes(
    image: &[u8],
    registers: &mut [u8],
    targets: &mut [u8],
    trace: &[Record],
    cycles: u32,
) -> Answer {
    let answer = reference::replay(image, registers, targets, trace, cycles);
    match no_port(image, trace) {
        Some(place) if answer.number == 17 => Answer::refused(13, place),
        _ => answer,
    }
}

fn judges_the_latest(
    image: &[u8],
    registers: &mut [u8],
    targets: &mut [u8],
    trace: &[Record],
    cycles: u32,
) -> Answer {
    let answer = reference::replay(image, registers, targets, trace, cycles);
    if answer.number != 17 {
        return answer;
    }
    let (bad, later) = (trace[answer.place], &trace[answer.place + 1..]);
    if later.iter().any(|record| same_port(record, &bad)) {
        let mut rest = trace.to_vec();
        rest.remove(answer.place);
        return judges_the_latest(image, registers, targets, &rest, cycles);
    }
    answer
}

fn order_before_cycles(
    image: &[u8],
    registers: &mut [u8],
    targets: &mut [u8],
    trace: &[Record],
    cycles: u32,
) -> Answer {
    let answer = reference::replay(image, registers, targets, trace, cycles);
    match judged(image, registers, targets, trace, cycles.min(MOST_CYCLES)) {
        order if answer.number == 15 && order.number == 23 => order,
        _ => answer,
    }
}

fn cuts_registers(
    image: &[u8],
    registers: &mut [u8],
    targets: &mut [u8],
    trace: &[Record],
    cycles: u32,
) -> Answer {
    let cut = trace.iter().map(|record| Record {
        register: record.register & 0xFFFF,
        ..*record
    });
    reference::replay(
        image,
        registers,
        targets,
        &cut.collect::<Vec<Record>>(),
        cycles,
    )
}

fn applies_good_ones(
    image: &[u8],
    registers: &mut [u8],
    targets: &mut [u8],
    trace: &[Record],
    cycles: u32,
) -> Answer {
    let answer = judged(image, registers, targets, trace, cycles);
    match answer.number {
        13 | 17 | 23 => {
            reference::replay(image, registers, targets, &trace[..answer.place], cycles)
        }
        _ => reference::replay(image, registers, targets, trace, cycles),
    };
    answer
}

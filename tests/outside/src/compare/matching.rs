//! Lists of calls that match at a level: the same remains when refused calls and port writes
//! to registers not at or below the level are struck out. They begin with empty journals, journal the same
//! cycles and go back by equal numbers at equal moments.

use super::calls::Call;
use crate::generate::random::Random;
use crate::reference::image::{INNER, PORT};
use crate::reference::limits::{MOST_CYCLES, WIDEST};
use crate::table::Table;

/// The most calls of a common list, and the most cycles of one of its runs.
const CALLS: usize = 14;
const CYCLES: usize = 7;

/// A journal for so many cycles is never too short for a common list, and always for the longest run.
pub const ROOM: usize = CALLS * CYCLES;

/// What both lists have in common.
pub fn common_list(table: &Table, level: u8, random: &mut Random) -> Vec<Call> {
    let low = ports(table, |label| table.flows(label, level));
    let mut list = Vec::new();
    let mut count = 0;
    for _ in 0..random.between(0, CALLS) {
        let call = match random.below(16) {
            0 => Call::Reset,
            1..=4 if !low.is_empty() => write(table, &low, random),
            5..=8 => Call::RunJournalled {
                cycles: random.between(0, CYCLES) as u32,
            },
            9..=11 if count > 0 => Call::StepBack {
                cycles: random.between(1, count as usize) as u32,
            },
            _ => Call::Run {
                cycles: random.between(0, CYCLES) as u32,
            },
        };
        count = saved_after(count, call);
        list.push(call);
    }
    list
}

/// The cycles that a journal has saved after an accepted call.
fn saved_after(count: u32, call: Call) -> u32 {
    match call {
        Call::RunJournalled { cycles } => count + cycles,
        Call::StepBack { cycles } => count - cycles,
        _ => count,
    }
}

/// The common list with its runs and steps back cut anew and calls that will be struck out between them.
pub fn dressed(common: &[Call], table: &Table, level: u8, random: &mut Random) -> Vec<Call> {
    let mut list = Vec::new();
    let mut count = 0;
    for &call in common {
        add_struck(&mut list, count, table, level, random);
        for part in cut(call, random) {
            list.push(part);
            count = saved_after(count, part);
            add_struck(&mut list, count, table, level, random);
        }
    }
    add_struck(&mut list, count, table, level, random);
    list
}

/// Several calls that come to the same.
fn cut(call: Call, random: &mut Random) -> Vec<Call> {
    let (part, mut rest): (fn(u32) -> Call, u32) = match call {
        Call::Run { cycles } => (|cycles| Call::Run { cycles }, cycles),
        Call::RunJournalled { cycles } => (|cycles| Call::RunJournalled { cycles }, cycles),
        Call::StepBack { cycles } => (|cycles| Call::StepBack { cycles }, cycles),
        whole => return vec![whole],
    };
    let mut parts = Vec::new();
    while rest > 0 {
        let cycles = random.between(0, rest as usize) as u32;
        parts.push(part(cycles));
        rest -= cycles;
    }
    parts
}

/// A list of which something else remains: it has one low write or one cycle more.
pub fn altered(list: &[Call], table: &Table, level: u8, random: &mut Random) -> Vec<Call> {
    let low = ports(table, |label| table.flows(label, level));
    let mut list = list.to_vec();
    let extra = if low.is_empty() {
        Call::Run { cycles: 1 }
    } else {
        write(table, &low, random)
    };
    list.insert(random.below(list.len() + 1), extra);
    list
}

/// A list that goes back by one less at some moment, or has one run that is not journalled; if it has any.
pub fn unlike_in_journal(list: &[Call], random: &mut Random) -> Option<Vec<Call>> {
    let other = |call: Call| match call {
        Call::RunJournalled { cycles } if (1..MOST_CYCLES).contains(&cycles) => {
            Some(Call::Run { cycles })
        }
        Call::StepBack { cycles } => Some(Call::StepBack {
            cycles: cycles.checked_sub(1)?,
        }),
        _ => None,
    };
    let places = 0..list.len();
    let places: Vec<usize> = places.filter(|&at| other(list[at]).is_some()).collect();
    if places.is_empty() {
        return None;
    }
    let at = *random.pick(&places);
    let mut list = list.to_vec();
    list[at] = other(list[at])?;
    Some(list)
}

/// The calls of a dressed list that 15, 21 and 22 refuse for the journal or the steps.
pub fn refused_in_journal(list: &[Call]) -> u64 {
    let mut count = 0;
    let mut refused = 0;
    for &call in list {
        let is_refused = match call {
            Call::RunJournalled { cycles } => cycles >= MOST_CYCLES,
            Call::StepBack { cycles } => cycles > count,
            _ => false,
        };
        if is_refused {
            refused += 1;
        } else {
            count = saved_after(count, call);
        }
    }
    refused
}

/// A write that 17 refuses.
pub fn is_too_large(call: &Call, table: &Table) -> bool {
    let Call::WritePort { register, value } = *call else {
        return false;
    };
    let named = table.registers.get(register as usize);
    named.is_some_and(|port| port.kind == PORT && value > port.most())
}

/// The journal has saved so many cycles by then.
fn add_struck(list: &mut Vec<Call>, count: u32, table: &Table, level: u8, random: &mut Random) {
    let high = ports(table, |label| !table.flows(label, level));
    let inner: Vec<u32> = table.of_kind(INNER).into_iter().map(u32::from).collect();
    // Low ones too: 17 refuses the call for all.
    let mut narrow = ports(table, |_| true);
    narrow.retain(|&register| table.registers[register as usize].width < WIDEST);
    for _ in 0..random.below(3) {
        list.push(match random.below(9) {
            0 => Call::Run {
                cycles: *random.pick(&[1_000_001, u32::MAX]),
            },
            1 => Call::WritePort {
                register: *random.pick(&[table.registers.len() as u32, 64, u32::MAX]),
                value: random.value(),
            },
            2 if !inner.is_empty() => write(table, &inner, random),
            3 if !narrow.is_empty() => write_too_large(table, &narrow, random),
            4 => Call::RunJournalled {
                cycles: *random.pick(&[0, MOST_CYCLES, MOST_CYCLES + 1, u32::MAX]),
            },
            5 => Call::StepBack {
                cycles: *random.pick(&[0, count + 1, count + 1, u32::MAX]),
            },
            _ if !high.is_empty() => write(table, &high, random),
            _ => Call::Run { cycles: 0 },
        });
    }
}

fn write(table: &Table, registers: &[u32], random: &mut Random) -> Call {
    let register = *random.pick(registers);
    let value = random.fitting(table.registers[register as usize].width);
    Call::WritePort { register, value }
}

/// Of registers that are all narrow.
fn write_too_large(table: &Table, registers: &[u32], random: &mut Random) -> Call {
    let register = *random.pick(registers);
    let width = table.registers[register as usize].width;
    let value = random.too_large(width).expect("a narrow register");
    Call::WritePort { register, value }
}

fn ports(table: &Table, wanted: impl Fn(u8) -> bool) -> Vec<u32> {
    let ports = table.of_kind(PORT).into_iter();
    ports
        .filter(|&port| wanted(table.registers[usize::from(port)].label))
        .map(u32::from)
        .collect()
}

//! What chance puts into a list of calls: the calls, the lengths lent, and what the host writes
//! between two calls.

use super::areas::{Areas, Lengths};
use super::calls::Call;
use crate::generate::random::Random;
use crate::reference::limits::MOST_PARAMETERS;
use crate::table::{Register, Table};

/// What the host writes into the areas between two calls.
pub fn disturb(areas: &mut Areas, table: &Table, random: &mut Random) {
    match random.below(20) {
        // Choices that the design may never have made.
        0..=2 => any_sound_choices(areas, table, random),
        3 => any_sound_targets(areas, table, random),
        4 => any_target(areas, table, random),
        5 | 6 if !table.registers.is_empty() => {
            let register = random.below(table.registers.len());
            let width = table.registers[register].width;
            areas.set_value(register, random.fitting(width));
        }
        7 | 8 => {
            for (register, record) in table.registers.iter().enumerate() {
                areas.set_value(register, random.fitting(record.width));
            }
        }
        9 => {
            too_large_values(areas, table, random);
            if random.percent(30) {
                any_target(areas, table, random);
            }
        }
        10 => any_sound_bindings(areas, table, random),
        11 => any_binding(areas, table, random),
        12 => {
            any_binding(areas, table, random);
            if random.percent(40) {
                any_target(areas, table, random);
            }
        }
        _ => {}
    }
}

/// Sound targets everywhere, and sound bindings.
pub fn any_sound_choices(areas: &mut Areas, table: &Table, random: &mut Random) {
    any_sound_targets(areas, table, random);
    any_sound_bindings(areas, table, random);
}

/// For each parameter a register that fits it, if there is one; elsewhere any, or 0.
fn any_sound_bindings(areas: &mut Areas, table: &Table, random: &mut Random) {
    let bindings = &mut areas.targets.whole()[table.states.len()..];
    for (state, bound) in table
        .states
        .iter()
        .zip(bindings.chunks_mut(MOST_PARAMETERS))
    {
        for (number, byte) in bound.iter_mut().enumerate() {
            let fitting = match state.pairs().get(number) {
                Some(&bounds) => table.fitting(&[], bounds),
                None => Vec::new(),
            };
            *byte = if !fitting.is_empty() {
                *random.pick(&fitting)
            } else if table.registers.is_empty() || random.percent(50) {
                0
            } else {
                random.below(table.registers.len()) as u8
            };
        }
    }
}

/// One binding or some, perhaps unsound, rather of states along the targets.
fn any_binding(areas: &mut Areas, table: &Table, random: &mut Random) {
    let states = table.states.len();
    let registers = table.registers.len();
    for _ in 0..*random.pick(&[1, 1, 1, 2, 4]) {
        let mut state = random.index(states);
        if random.percent(60) {
            // Down the targets for some steps, as far as they are states.
            state = 0;
            for _ in 0..random.between(1, 6) {
                let target = usize::from(areas.targets.whole()[state]);
                state = if target < states { target } else { state };
            }
        }
        let known = random.below(registers.max(1)) as u8;
        let byte = *random.pick(&[known, known, known, registers as u8, 0, 64, 255]);
        let place = states + MOST_PARAMETERS * state + random.below(MOST_PARAMETERS);
        areas.targets.whole()[place] = byte;
    }
}

/// Perhaps unsound: soon put right by a reset.
fn any_target(areas: &mut Areas, table: &Table, random: &mut Random) {
    let state = random.below(table.states.len());
    let (own, any) = (state as u8, random.bits() as u8);
    areas.targets.whole()[state] = *random.pick(&[0, own, own.wrapping_add(1), any]);
}

/// In one register or several, where they are narrow: soon put right by a reset.
fn too_large_values(areas: &mut Areas, table: &Table, random: &mut Random) {
    for _ in 0..*random.pick(&[1, 1, 2, 5]) {
        if table.registers.is_empty() {
            return;
        }
        let register = random.index(table.registers.len());
        if let Some(value) = random.too_large(table.registers[register].width) {
            areas.set_value(register, value);
        }
    }
}

fn any_sound_targets(areas: &mut Areas, table: &Table, random: &mut Random) {
    let states = table.states.len();
    let targets = &mut areas.targets.whole()[..states];
    for (state, target) in targets.iter_mut().enumerate() {
        let children = table.children(state);
        *target = match children.is_empty() {
            true => state as u8,
            false => *random.pick(&children),
        };
    }
}

pub fn any_call(table: &Table, random: &mut Random) -> Call {
    match random.below(10) {
        0 | 1 => Call::Reset,
        2..=4 => any_write(table, random),
        _ => Call::Run {
            cycles: match random.below(8) {
                0 => 0,
                1 => *random.pick(&[1_000_001, 1_000_002, 1 << 31, u32::MAX]),
                2 | 3 => 1,
                4 if table.commands.len() < 100 => random.below(3_000) as u32,
                _ => random.below(20) as u32,
            },
        },
    }
}

fn any_write(table: &Table, random: &mut Random) -> Call {
    let register = match random.below(8) {
        0 => table.registers.len() as u32,
        1 => *random.pick(&[64, 256, 65_536, u32::MAX, 1 << 30]),
        _ => random.below(table.registers.len().max(1)) as u32,
    };
    let value = match table.registers.get(register as usize) {
        Some(record) => value_for(record, random),
        None => random.value(),
    };
    Call::WritePort { register, value }
}

/// Within the width, or too large for it.
fn value_for(register: &Register, random: &mut Random) -> u32 {
    let too_large = random.too_large(register.width);
    match too_large {
        Some(value) if random.percent(40) => value,
        _ => random.fitting(register.width),
    }
}

/// Mostly the right lengths.
pub fn any_lengths(areas: &Areas, random: &mut Random) -> Lengths {
    let mut lengths = areas.lengths();
    if random.percent(15) {
        let length = match random.below(2) {
            0 => &mut lengths.registers,
            _ => &mut lengths.targets,
        };
        let right = *length;
        *length = match random.below(7) {
            // Targets without bindings, or with one for each state.
            5 => right / 3,
            6 => right / 3 * 2,
            0 => right + 1,
            1 => right.saturating_sub(1),
            2 => right + 4,
            3 => right.saturating_sub(4),
            _ => 0,
        };
    }
    lengths
}

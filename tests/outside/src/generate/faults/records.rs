//! Faults in label rows, registers and states (refusals 2 to 4).

use crate::generate::random::Random;
use crate::reference::limits::{MOST_COMMANDS, MOST_LABELS, MOST_STATES, WIDEST};
use crate::table::{Register, Table};

pub fn spoil_rows(table: &mut Table, random: &mut Random) {
    let count = table.rows.len();
    let i = random.index(count);
    let j = random.index(count);
    match random.below(8) {
        // Any one bit of any row.
        0 => table.rows[i] ^= 1 << random.below(16),
        // One bit that speaks of a label.
        1 => table.rows[i] ^= 1 << j,
        // Not reflexive.
        2 => table.rows[i] &= !(1 << i),
        // Both flow to each other.
        3 => {
            table.rows[i] |= 1 << j;
            table.rows[j] |= 1 << i;
        }
        // Twins: the same labels above both.
        4 => {
            let both = table.rows[i] | table.rows[j] | 1 << i | 1 << j;
            table.rows[i] = both;
            table.rows[j] = both;
        }
        // The first bit at the count, or the last there is.
        5 => {
            if count < 16 {
                let bit = *random.pick(&[count, 15]);
                table.rows[i] |= 1 << bit;
            }
        }
        // Orders without a least common label, and rows that are no order.
        6 => {
            let rows: &[&[u16]] = &[
                &[7, 2, 4],
                &[1, 2],
                &[3, 0],
                &[3, 6],
                &[7, 6, 6],
                &[63, 58, 60, 8, 16, 32],
                &[63, 58, 60, 40, 48, 32],
                &[0],
                &[2],
                &[3],
            ];
            table.rows = random.pick(rows).to_vec();
        }
        _ => {
            for row in &mut table.rows {
                if random.percent(30) {
                    *row = random.bits() as u16;
                }
            }
        }
    }
}

pub fn spoil_register(table: &mut Table, random: &mut Random) {
    if table.registers.is_empty() {
        return;
    }
    let labels = table.rows.len() as u8;
    let number = random.index(table.registers.len());
    let register = &mut table.registers[number];
    match random.below(4) {
        0 => register.label = *random.pick(&[labels, MOST_LABELS as u8, 17, 255, 0x80]),
        1 => register.kind = *random.pick(&[2, 3, 128, 255]),
        2 => register.width = *random.pick(&[0, WIDEST + 1, WIDEST + 2, 64, 128, 255]),
        _ => spoil_reset(register, random),
    }
}

/// A reset value too large, in a register that is narrow enough for one.
fn spoil_reset(register: &mut Register, random: &mut Random) {
    if !(1..WIDEST).contains(&register.width) {
        register.width = *random.pick(&[1, 10, WIDEST - 1]);
    }
    if let Some(value) = random.too_large(register.width) {
        register.reset = value;
    }
}

pub fn spoil_state(table: &mut Table, random: &mut Random) {
    let labels = table.rows.len() as u8;
    let states = table.states.len();
    let commands = table.commands.len() as u16;
    // Neither a label nor what stands for one.
    let none: &[u8] = match usize::from(labels) {
        MOST_LABELS => &[18, 19, 128, 255],
        _ => &[labels, MOST_LABELS as u8 - 1, 18, 255],
    };
    let number = random.index(states);
    let state = &mut table.states[number];
    match (random.below(3), number) {
        // The root has parent 0 and label 0, though others exist.
        (0, 0) => state.parent = random.index(states) as u8,
        (1, 0) if random.percent(30) => state.label = *random.pick(none),
        (1, 0) => state.label = random.index(usize::from(labels)) as u8,
        (0, _) => {
            let above = random.between(number, states) as u8;
            state.parent = *random.pick(&[number as u8, above, MOST_STATES as u8, 255]);
        }
        (1, _) => state.label = *random.pick(none),
        _ => {
            state.command = *random.pick(&[commands, commands + 1, MOST_COMMANDS as u16, u16::MAX])
        }
    }
    if random.percent(2) {
        table.commands.clear();
    }
}

//! What chance does with a journal: the calls, the lengths lent, and what the host writes into it between two
//! calls. Counts and lengths lie around those at which an answer turns.

use super::areas::Areas;
use super::calls::Call;
use super::chance::disturb;
use crate::generate::random::Random;
use crate::reference::limits::{COUNT_BYTES, MOST_CYCLES};
use crate::table::Table;

/// The longest journals, in bytes, so that lists on large designs do not take too long.
const LONGEST: usize = 12_000;

/// How many cycles a journal has room for.
pub fn any_room(table: &Table, random: &mut Random) -> usize {
    let (registers, targets) = table.areas();
    let room = *random.pick(&[0, 1, 2, 2, 3, 3, 4, 6, 8, 12, 40, 300]);
    room.min(LONGEST / (registers + targets))
}

pub fn any_journal_call(areas: &mut Areas, random: &mut Random) -> Call {
    if random.percent(50) {
        let cycles = any_journalled_cycles(areas, random);
        Call::RunJournalled { cycles }
    } else {
        let cycles = any_steps(areas.count(), random);
        Call::StepBack { cycles }
    }
}

fn any_journalled_cycles(areas: &mut Areas, random: &mut Random) -> u32 {
    let count = areas.count();
    let left = (areas.room() as u32).saturating_sub(count);
    // With as many the new count passes 32 bits.
    let past = count.wrapping_neg().wrapping_add(random.below(3) as u32);
    match random.below(12) {
        0 => 0,
        1 => *random.pick(&[MOST_CYCLES + 1, 1 << 31, u32::MAX]),
        2 => left,
        3 => left + 1,
        4 => MOST_CYCLES,
        5 if past <= MOST_CYCLES => past,
        6 => random.below(left as usize + 2) as u32,
        _ => random.between(1, 3) as u32,
    }
}

/// Mostly such a number as the journal counts.
fn any_steps(count: u32, random: &mut Random) -> u32 {
    match random.below(12) {
        0 => 0,
        1 => count,
        2 => count.wrapping_add(1),
        3 => count.saturating_sub(1),
        4 => *random.pick(&[MOST_CYCLES, MOST_CYCLES + 1, 1 << 31, u32::MAX]),
        5..=7 => 1,
        _ => random.between(0, count as usize) as u32,
    }
}

/// Often the whole, else around what the call needs, or no room for a count.
pub fn any_journal_length(areas: &mut Areas, call: Call, random: &mut Random) -> usize {
    let whole = areas.journal.length();
    let longest = whole + COUNT_BYTES;
    let more = match call {
        Call::RunJournalled { cycles } => u64::from(cycles),
        _ => 0,
    };
    let state = areas.state_length();
    let cycles = u64::from(areas.count()) + more;
    let needed = COUNT_BYTES as u64 + cycles * state as u64;
    let length = match random.below(20) {
        0 => random.below(COUNT_BYTES),
        1 => *random.pick(&[0, COUNT_BYTES, COUNT_BYTES + 1, COUNT_BYTES + state]),
        2..=6 if needed <= whole as u64 => {
            let needed = needed as usize;
            *random.pick(&[needed, needed, needed - 1, needed + 1])
        }
        7 => random.between(0, whole),
        8 => random.between(whole, longest),
        _ => whole,
    };
    length.min(longest)
}

/// What the host writes into the journal between two calls.
pub fn disturb_journal(areas: &mut Areas, table: &Table, random: &mut Random) {
    let (count, room) = (areas.count() as usize, areas.room());
    match random.below(16) {
        0 => areas.set_count(0),
        1 => set_wild_count(areas, random),
        // Over states of any sort, also those that were gone back from.
        2 => areas.set_count(random.between(0, room) as u32),
        3..=6 if room > 0 => {
            let last = count.clamp(1, room) - 1;
            let any = random.below(room);
            let number = *random.pick(&[last, last, any]);
            disturb_saved(areas, number, table, random);
        }
        // Soon put right.
        _ if count > room && random.percent(60) => {
            areas.set_count(random.between(0, room) as u32);
        }
        _ => {}
    }
}

/// Too large for the journal, and small where only 32 bits of it, or of it times a state, are kept.
fn set_wild_count(areas: &mut Areas, random: &mut Random) {
    let (room, state) = (areas.room() as u32, areas.state_length() as u64);
    let wrapped = (1_u64 << 32) / state + 1;
    let near_the_end = u32::MAX - random.below(20) as u32;
    let any = random.bits() as u32;
    areas.set_count(*random.pick(&[
        room + 1,
        room + 2,
        wrapped as u32,
        near_the_end,
        u32::MAX,
        1 << 31,
        any,
    ]));
}

/// A saved state becomes what the host makes of areas, or the areas as they are, or any bytes.
fn disturb_saved(areas: &mut Areas, number: usize, table: &Table, random: &mut Random) {
    let mut other = areas.clone();
    if random.percent(70) {
        let saved = areas.saved(number);
        let (registers, targets) = saved.split_at(other.registers.length());
        other.registers.whole().copy_from_slice(registers);
        other.targets.whole().copy_from_slice(targets);
    }
    match random.below(6) {
        0 => other.targets.whole()[0] = random.bits() as u8,
        _ => disturb(&mut other, table, random),
    }
    let state = [other.registers.whole(), other.targets.whole()].concat();
    areas.saved(number).copy_from_slice(&state);
}

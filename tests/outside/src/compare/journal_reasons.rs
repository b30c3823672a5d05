//! Why a call on a journal answered as it did, request E9: what was too short for what, which of several
//! faults counted, and what stood where nothing was judged. Each reason has to be met.

use super::reasons::Lent;
use super::soundness::{fault, right_lengths, Fault};
use super::tally::Tally;
use crate::answer::Answer;
use crate::reference::image::Image;
use crate::reference::limits::{COUNT_BYTES, MOST_CYCLES, TARGET_BYTES};

/// A journal before the call.
struct Journal<'a> {
    bytes: &'a [u8],
    /// None where there is no room for a count.
    count: Option<u64>,
    /// The bytes of a saved state.
    state: u64,
}

impl Journal<'_> {
    fn of<'a>(image: &Image, bytes: &'a [u8]) -> Journal<'a> {
        let count = bytes.first_chunk::<COUNT_BYTES>();
        let state = 4 * image.registers().len() + TARGET_BYTES * image.states().len();
        Journal {
            bytes,
            count: count.map(|count| u32::from_le_bytes(*count).into()),
            state: state as u64,
        }
    }

    /// The bytes for so many saved states.
    fn needed(&self, count: u64) -> u64 {
        COUNT_BYTES as u64 + count * self.state
    }

    fn has_room_for(&self, count: u64) -> bool {
        self.bytes.len() as u64 >= self.needed(count)
    }

    /// Too short for its count and so many cycles more.
    fn is_too_short(&self, more: u32) -> bool {
        let room = |count| self.has_room_for(count + u64::from(more));
        !self.count.is_some_and(room)
    }

    /// The saved state of this number, where there is room for it.
    fn saved(&self, number: u64) -> Option<&[u8]> {
        let start = self.needed(number) as usize;
        self.bytes.get(start..start + self.state as usize)
    }
}

fn fault_of_state(image: &Image, state: &[u8]) -> Option<Fault> {
    let (registers, targets) = state.split_at(4 * image.registers().len());
    fault(image, registers, targets)
}

/// Both calls refuse a journal for these reasons.
fn note_too_short(tally: &mut Tally, journal: &Journal, more: u32, answer: Answer) {
    let by_journal = answer.number == 21;
    let length = journal.bytes.len();
    tally.note("21 by a journal of no bytes", by_journal && length == 0);
    let three = by_journal && length == COUNT_BYTES - 1;
    tally.note("21 by a journal of 3 bytes", three);
    let Some(count) = journal.count else {
        return;
    };
    let new = count + u64::from(more);
    let short_by = |bytes: u64| length as u64 + bytes == journal.needed(new);
    tally.note("21, one byte too short", by_journal && short_by(1));
    let own = !journal.has_room_for(count);
    tally.note("21, too short for its own count", by_journal && own);
    let kept = u64::from((count * journal.state) as u32) + COUNT_BYTES as u64;
    let wraps = own && kept <= length as u64;
    tally.note(
        "21, room for the low 32 bits of the states' length",
        by_journal && wraps,
    );
    let none = by_journal && own && more == 0;
    tally.note("21 where nothing is to be run", none);
    let accepted = answer.number == 0;
    tally.note("accepted, not a byte too long", accepted && short_by(0));
    let slack = !short_by(0) && !journal.has_room_for(new + 1);
    tally.note("accepted, part of a state is left", accepted && slack);
    let longer = journal.has_room_for(new + 2);
    tally.note("accepted, some states are left", accepted && longer);
}

/// Of an image that is not refused.
pub fn note_run_journalled(
    tally: &mut Tally,
    image: &Image,
    lent: &Lent,
    cycles: u32,
    answer: Answer,
) {
    let journal = Journal::of(image, lent.journal);
    let too_short = journal.is_too_short(cycles);
    note_too_short(tally, &journal, cycles, answer);
    let count = journal.count.unwrap_or(0);
    let fits = count + u64::from(cycles) <= u32::MAX.into();
    let (by_journal, accepted) = (answer.number == 21, answer.number == 0);
    tally.note("21 by the cycles to run alone", {
        by_journal
            && journal
                .count
                .is_some_and(|count| journal.has_room_for(count))
    });
    tally.note("21, the new count passes 32 bits", by_journal && !fits);
    tally.note(
        "21 with 1,000,000 cycles",
        by_journal && cycles == MOST_CYCLES,
    );
    tally.note("15 where 21 would follow", answer.number == 15 && too_short);
    tally.note(
        "15 with an empty journal",
        answer.number == 15 && count == 0 && journal.count.is_some(),
    );
    if answer.number == 14 {
        let found = right_lengths(image, lent.registers, lent.targets)
            .then(|| fault(image, lent.registers, lent.targets));
        let found = found.flatten();
        tally.note("14 by a length", found.is_none());
        tally.note("14 by contents", found == Some(Fault::Contents));
        tally.note("14 by a target", found == Some(Fault::Target));
        tally.note("14 by a binding", found == Some(Fault::Binding));
        tally.note("14 where 21 would follow", too_short);
    }
    tally.note("accepted, no cycles", accepted && cycles == 0);
    tally.note("accepted, one cycle", accepted && cycles == 1);
    tally.note("accepted, many cycles", accepted && cycles > 10);
    let empty = accepted && count == 0 && cycles > 0;
    tally.note("accepted, the first cycles", empty);
    let behind = accepted && count > 0 && cycles > 0;
    tally.note("accepted, behind others", behind);
    tally.note("accepted, a count of more than a byte", {
        accepted && count < 256 && count + u64::from(cycles) >= 256
    });
    let unsound = |number: u64| {
        let saved = journal.saved(number);
        saved.is_some_and(|state| fault_of_state(image, state).is_some())
    };
    tally.note(
        "accepted, behind a state that is not sound",
        behind && unsound(count - 1),
    );
}

/// Of an image that is not refused.
pub fn note_step_back(tally: &mut Tally, image: &Image, lent: &Lent, steps: u32, answer: Answer) {
    let journal = Journal::of(image, lent.journal);
    note_too_short(tally, &journal, 0, answer);
    let too_short = journal.is_too_short(0);
    let count = journal.count.unwrap_or(0);
    let above = u64::from(steps) > count;
    if !right_lengths(image, lent.registers, lent.targets) {
        tally.note("14 by a length, 21 would follow", too_short);
        tally.note("14 by a length, 22 would follow", !too_short && above);
        tally.note("14 by a length, no steps", steps == 0);
        return;
    }
    let number = answer.number;
    tally.note("21 where 22 would follow", number == 21 && above);
    tally.note(
        "21, steps within the count",
        number == 21 && !above && steps > 0,
    );
    if number == 22 {
        tally.note("22 with an empty journal", count == 0);
        let next = u64::from(steps) == count + 1;
        tally.note("22, one more than the count", count > 0 && next);
        tally.note("22, more than 1,000,000", steps > MOST_CYCLES);
        tally.note("22, all bits of the number set", steps == u32::MAX);
    }
    if matches!(number, 0 | 14) {
        note_saved(tally, image, lent, &journal, steps, answer);
    }
}

/// Of a journal that is long enough and a number within its count.
fn note_saved(
    tally: &mut Tally,
    image: &Image,
    lent: &Lent,
    journal: &Journal,
    steps: u32,
    answer: Answer,
) {
    let count = journal.count.expect("room for a count");
    let left = count - u64::from(steps);
    let restored = journal.saved(left).filter(|_| steps > 0);
    let now = fault(image, lent.registers, lent.targets);
    let found = restored.and_then(|state| fault_of_state(image, state));
    let accepted = answer.number == 0;
    tally.note("14 by saved contents", found == Some(Fault::Contents));
    tally.note("14 by a saved target", found == Some(Fault::Target));
    tally.note("14 by a saved binding", found == Some(Fault::Binding));
    let refused = !accepted && now.is_none();
    tally.note("14 of a saved state, the areas are sound", refused);
    tally.note("14 of a saved state, above place 0", answer.place > 0);
    let over = |number: u64| {
        let state = journal.saved(number);
        state.is_some_and(|state| fault_of_state(image, state).is_some())
    };
    tally.note("accepted, no steps", accepted && steps == 0);
    let unsound = accepted && steps == 0 && now.is_some();
    tally.note("accepted, no steps, areas that are not sound", unsound);
    let last = accepted && steps == 0 && count > 0 && over(count - 1);
    tally.note("accepted, no steps, a saved state that is not", last);
    if !accepted || steps == 0 {
        return;
    }
    tally.note("accepted, one of several", steps == 1 && count > 1);
    tally.note("accepted, several of more", steps > 1 && left > 0);
    tally.note("accepted, all", steps > 1 && left == 0);
    tally.note("accepted, from areas that are not sound", now.is_some());
    let before = left > 0 && over(left - 1);
    tally.note("accepted, one before it is not sound", before);
    let behind = steps > 1 && over(count - 1);
    tally.note("accepted, one gone back over is not sound", behind);
    let areas = [lent.registers, lent.targets].concat();
    let registers = lent.registers.len();
    let state = restored.expect("a step back");
    tally.note(
        "accepted, other registers",
        state[..registers] != areas[..registers],
    );
    let states = image.states().len();
    let targets = registers..registers + states;
    tally.note(
        "accepted, other targets",
        state[targets.clone()] != areas[targets],
    );
    let bindings = registers + states;
    tally.note(
        "accepted, other bindings",
        state[bindings..] != areas[bindings..],
    );
}

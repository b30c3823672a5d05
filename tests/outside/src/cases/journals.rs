//! Journals, request E9: worked examples, refusals 21 and 22, and 14 of a saved state. A refusal changes no lent
//! byte.

use super::{refused_run, Areas};
use crate::answer::Answer;
use crate::designs::{lease, one_group, smallest, three_levels, valve};
use crate::reference;

/// A saved state of the lease design: the registers, its targets, no binding but 0.
const STATE: usize = 23;

/// The areas before its first four cycles from reset, written by hand after P1.
const SAVED: [[u8; STATE]; 4] = [
    [
        3, 0, 0, 0, 0, 0, 0, 0, 1, 1, 3, 3, 4, 0, 0, 0, 0, 0, 0, 0, 0, 0, 0,
    ],
    [
        3, 0, 0, 0, 0, 0, 0, 0, 2, 1, 3, 3, 4, 0, 0, 0, 0, 0, 0, 0, 0, 0, 0,
    ],
    [
        2, 0, 0, 0, 0, 0, 0, 0, 2, 1, 3, 3, 4, 0, 0, 0, 0, 0, 0, 0, 0, 0, 0,
    ],
    [
        1, 0, 0, 0, 0, 0, 0, 0, 2, 1, 3, 3, 4, 0, 0, 0, 0, 0, 0, 0, 0, 0, 0,
    ],
];

/// A design with its areas and a journal.
struct Site {
    areas: Areas,
    journal: Vec<u8>,
}

impl Site {
    /// The lease design after a reset, with an empty journal for so many cycles and some bytes more.
    fn lease(cycles: usize, more: usize) -> Site {
        Site {
            areas: Areas::reset(&lease()),
            journal: [&[0; 4][..], &vec![0xAA; STATE * cycles + more]].concat(),
        }
    }

    fn run(&mut self, cycles: u32) -> Answer {
        let Areas {
            image,
            registers,
            targets,
        } = &mut self.areas;
        reference::run_journalled(image, registers, targets, &mut self.journal, cycles)
    }

    fn back(&mut self, cycles: u32) -> Answer {
        let Areas {
            image,
            registers,
            targets,
        } = &mut self.areas;
        reference::step_back(image, registers, targets, &mut self.journal, cycles)
    }

    fn lent(&self) -> Vec<Vec<u8>> {
        let Areas {
            registers, targets, ..
        } = &self.areas;
        vec![registers.clone(), targets.clone(), self.journal.clone()]
    }

    /// Number and place of a refusal, which leaves every byte alone.
    fn refused(&mut self, call: impl Fn(&mut Site) -> Answer) -> (u32, usize) {
        let before = self.lent();
        let answer = call(self);
        assert_ne!(answer.number, 0);
        assert_eq!(answer.count, 0);
        assert_eq!(self.lent(), before);
        (answer.number, answer.place)
    }

    fn refused_run(&mut self, cycles: u32) -> (u32, usize) {
        self.refused(|site| site.run(cycles))
    }

    fn refused_back(&mut self, cycles: u32) -> (u32, usize) {
        self.refused(|site| site.back(cycles))
    }

    fn set_count(&mut self, count: u32) {
        self.journal[..4].copy_from_slice(&count.to_le_bytes());
    }

    /// Registers and targets as one saved state.
    fn now(&self) -> Vec<u8> {
        [&self.areas.registers[..], &self.areas.targets].concat()
    }
}

#[test]
fn a_run_saves_what_was_before_each_cycle() {
    let mut site = Site::lease(4, 3);
    assert_eq!(site.run(3), Answer::accepted(3));
    assert_eq!(site.now(), SAVED[3]);
    let expected = [&[3, 0, 0, 0][..], &SAVED[..3].concat(), &[0xAA; STATE + 3]];
    assert_eq!(site.journal, expected.concat());
    // The next one goes on behind them.
    assert_eq!(site.run(1), Answer::accepted(1));
    let expected = [&[4, 0, 0, 0][..], &SAVED.concat(), &[0xAA; 3]];
    assert_eq!(site.journal, expected.concat());
    // Otherwise it is a run.
    let mut plain = Areas::reset(&lease());
    plain.run(4);
    assert_eq!(site.now(), [plain.registers, plain.targets].concat());
}

#[test]
fn no_cycles_change_nothing() {
    let mut site = Site::lease(2, 0);
    site.run(1);
    let before = site.lent();
    assert_eq!(site.run(0), Answer::accepted(0));
    assert_eq!(site.back(0), Answer::accepted(0));
    assert_eq!(site.lent(), before);
    let mut site = Site::lease(0, 0);
    assert_eq!(site.run(0), Answer::accepted(0));
    assert_eq!(site.back(0), Answer::accepted(0));
    assert_eq!(site.journal, [0; 4]);
}

#[test]
fn back_restores_and_lowers_the_count_alone() {
    for back in 1..=4 {
        let mut site = Site::lease(4, 2);
        site.run(4);
        let mut journal = site.journal.clone();
        assert_eq!(site.back(back), Answer::accepted(back as usize));
        let left = 4 - back as usize;
        assert_eq!(site.now(), SAVED[left]);
        // The bytes of the cycles that are gone stay where they were.
        journal[0] = left as u8;
        assert_eq!(site.journal, journal);
        // The same cycles once more.
        assert_eq!(site.run(back), Answer::accepted(back as usize));
        journal[0] = 4;
        assert_eq!(site.journal, journal);
    }
}

#[test]
fn back_in_two_steps_is_back_in_one() {
    let mut site = Site::lease(4, 0);
    site.run(4);
    assert_eq!(site.back(1), Answer::accepted(1));
    assert_eq!(site.now(), SAVED[3]);
    assert_eq!(site.back(2), Answer::accepted(2));
    assert_eq!(site.now(), SAVED[1]);
    assert_eq!(site.journal[..4], [1, 0, 0, 0]);
}

/// Cycles run without the journal are not counted; port writes and resets do not touch it.
#[test]
fn only_journalled_cycles_are_counted() {
    let mut site = Site::lease(4, 0);
    site.run(2);
    assert_eq!(site.areas.run(3), Answer::accepted(3));
    assert_eq!(site.areas.write_port(1, 7), Answer::accepted(0));
    let before = site.now();
    site.run(1);
    let journal = site.journal.clone();
    assert_eq!(journal[4 + 2 * STATE..][..STATE], before);
    let Areas {
        image,
        registers,
        targets,
    } = &mut site.areas;
    assert_eq!(reference::reset(image, registers, targets).number, 0);
    assert_eq!(site.journal, journal);
    // Ports come back too: the third last cycle found 0 in the port.
    site.back(1);
    assert_eq!(site.areas.values()[1], 7);
    site.back(2);
    assert_eq!(site.now(), SAVED[0]);
}

#[test]
fn lengths_of_the_journal() {
    for length in 0..4 {
        let mut site = Site::lease(0, 0);
        site.journal.truncate(length);
        for cycles in [0, 1, 1_000_000] {
            assert_eq!(site.refused_run(cycles), (21, 0));
            assert_eq!(site.refused_back(cycles), (21, 0));
        }
    }
    for (cycles, more) in [(0, 0), (1, 0), (1, 1), (2, STATE - 1), (3, 0)] {
        let mut site = Site::lease(cycles, more);
        assert_eq!(site.refused_run(cycles as u32 + 1), (21, 0));
        assert_eq!(site.refused_run(1_000_000), (21, 0));
        assert_eq!(site.run(cycles as u32), Answer::accepted(cycles));
        assert_eq!(site.refused_run(1), (21, 0));
        assert_eq!(site.run(0), Answer::accepted(0));
        // Too short for its own count, also where nothing is run or gone back.
        site.journal.truncate(4 + STATE * cycles);
        if site.journal.len() > 4 {
            site.journal.pop();
            assert_eq!(site.refused_run(0), (21, 0));
            assert_eq!(site.refused_back(0), (21, 0));
            assert_eq!(site.refused_back(1), (21, 0));
        }
    }
}

#[test]
fn counts_that_are_too_large() {
    let mut site = Site::lease(2, 0);
    // The last of them times 23 is less than 23 in 32 bits.
    let wrapped = ((1_u64 << 32) / STATE as u64 + 1) as u32;
    for count in [3, 256, 65_536, 1 << 24, 1 << 31, wrapped] {
        site.set_count(count);
        assert_eq!(site.refused_run(0), (21, 0));
        assert_eq!(site.refused_back(0), (21, 0));
    }
    // The new count passes 32 bits, and is small if they are all that is kept of it.
    for (count, cycles) in [
        (u32::MAX, 1),
        (u32::MAX, 3),
        (u32::MAX - 999_999, 1_000_000),
    ] {
        site.set_count(count);
        assert_eq!(site.refused_run(cycles), (21, 0));
        assert_eq!(site.refused_back(cycles), (21, 0));
        assert_eq!(site.refused_back(count), (21, 0));
    }
    site.set_count(1 << 30);
    assert_eq!(site.refused_back((1 << 30) + 1), (21, 0));
}

#[test]
fn steps_above_the_count() {
    let mut site = Site::lease(3, 0);
    for back in [1, 2, 1_000_000, 1_000_001, u32::MAX] {
        assert_eq!(site.refused_back(back), (22, 0));
    }
    site.run(3);
    for back in [4, 1_000_001, u32::MAX] {
        assert_eq!(site.refused_back(back), (22, 0));
    }
    assert_eq!(site.back(3), Answer::accepted(3));
    assert_eq!(site.refused_back(1), (22, 0));
}

/// 15 sets no limit to a step back.
#[test]
fn more_than_a_million_back() {
    let mut site = Site {
        areas: Areas::reset(&smallest()),
        journal: vec![0; 4 + 6 * 1_000_002],
    };
    assert_eq!(site.refused_run(1_000_001), (15, 0));
    assert_eq!(site.run(1_000_000), Answer::accepted(1_000_000));
    assert_eq!(site.run(2), Answer::accepted(2));
    assert_eq!(site.refused_run(1), (21, 0));
    assert_eq!(site.refused_back(1_000_003), (22, 0));
    assert_eq!(site.back(1_000_001), Answer::accepted(1_000_001));
    assert_eq!(site.journal[..4], [1, 0, 0, 0]);
}

/// A journalled run: the image, 14, 15, 21. Going back: the image, 14 for lengths, 21, 22, 14 for what was
/// saved.
#[test]
fn the_order_of_refusals() {
    let mut site = Site::lease(2, 0);
    site.run(2);
    site.journal.truncate(3);
    assert_eq!(site.refused_run(1_000_001), (15, 0));
    assert_eq!(site.refused_back(u32::MAX), (21, 0));
    site.areas.targets[2] = 9;
    assert_eq!(site.refused_run(1_000_001), (14, 2));
    assert_eq!(site.refused_back(u32::MAX), (21, 0));
    site.areas.targets.pop();
    assert_eq!(site.refused_run(1_000_001), (14, 0));
    assert_eq!(site.refused_back(u32::MAX), (14, 0));
    site.areas.targets.push(0);
    site.areas.registers.push(0);
    assert_eq!(site.refused_back(0), (14, 0));
    site.areas.image.pop();
    assert_eq!(site.refused_run(1_000_001), (1, 0));
    assert_eq!(site.refused_back(u32::MAX), (1, 0));
}

/// What stands in the areas before going back does not matter, nor do the other saved states.
#[test]
fn only_the_state_that_is_restored_is_judged() {
    let mut site = Site::lease(3, 0);
    site.run(3);
    site.areas.targets.fill(99);
    assert_eq!(refused_run(&site.areas, 0), (14, 0));
    let unsound = site.lent();
    assert_eq!(site.back(0), Answer::accepted(0));
    assert_eq!(site.lent(), unsound);
    site.journal[4..][..STATE].fill(99);
    site.journal[4 + 2 * STATE..].fill(99);
    assert_eq!(site.refused_back(1), (14, 0));
    assert_eq!(site.refused_back(3), (14, 0));
    assert_eq!(site.refused_back(4), (22, 0));
    assert_eq!(site.back(2), Answer::accepted(2));
    assert_eq!(site.now(), SAVED[1]);
    assert_eq!(site.refused_back(1), (14, 0));
}

/// Bytes are taken as lent: a count that the host has set, over states that nobody journalled.
#[test]
fn journals_as_they_are_lent() {
    let mut site = Site::lease(2, 0);
    let other = [
        9, 0, 0, 0, 5, 0, 0, 0, 2, 1, 4, 3, 4, 0, 1, 0, 1, 0, 0, 0, 0, 0, 0,
    ];
    site.journal[4..][..STATE].copy_from_slice(&SAVED[2]);
    site.journal[4 + STATE..].copy_from_slice(&other);
    site.set_count(2);
    assert_eq!(site.back(1), Answer::accepted(1));
    assert_eq!(site.now(), other);
    assert_eq!(site.areas.walk(), [0, 2, 4]);
    // The state that was left behind, counted again.
    site.set_count(2);
    assert_eq!(site.back(2), Answer::accepted(2));
    assert_eq!(site.now(), SAVED[2]);
    site.set_count(2);
    assert_eq!(site.back(1), Answer::accepted(1));
    assert_eq!(site.now(), other);
}

/// 14 of a saved state has the place that a run would have: contents, targets, bindings.
#[test]
fn saved_states_that_are_not_sound() {
    let mut site = Site {
        areas: Areas::reset(&valve()),
        journal: vec![0; 4 + 2 * 32],
    };
    site.run(2);
    let good = site.lent();
    // Of widths 10, 1, 10, 1 and 32, then four targets.
    for (byte, value, place) in [(1, 4, 0), (4, 2, 1), (10, 1, 2), (12, 3, 3), (20, 0, 0)] {
        site.journal[4 + 32 + byte] = value;
        assert_eq!(site.refused_back(1), (14, place));
        site.journal.clone_from(&good[2]);
    }
    site.journal[4 + 32 + 20..][..4].fill(77);
    assert_eq!(site.refused_back(1), (14, 0));
    site.journal[4 + 32 + 12] = 2;
    assert_eq!(site.refused_back(1), (14, 3));
    assert_eq!(site.back(2), Answer::accepted(2));

    let mut site = Site {
        areas: Areas::reset(&one_group()),
        journal: vec![0; 4 + 39],
    };
    assert_eq!(site.run(1), Answer::accepted(1));
    // Six registers, five states: the bindings of state 1 and the first of state 2, which is a port.
    site.journal[4 + 24] = 2;
    for (byte, value, place) in [(2, 6, 1), (3, 255, 1), (4, 2, 2), (5, 64, 2)] {
        let before = site.journal.clone();
        site.journal[4 + 24 + 5 + byte] = value;
        assert_eq!(site.refused_back(1), (14, place));
        site.journal = before;
    }
    assert_eq!(site.back(1), Answer::accepted(1));
}

/// Without registers a saved state is the targets alone.
#[test]
fn no_registers() {
    let mut areas = Areas::reset(&three_levels());
    areas.set_targets(&[2, 4, 8, 6, 4, 5, 6, 7, 8]);
    let mut site = Site {
        areas,
        journal: vec![0; 4 + 27],
    };
    assert_eq!(site.run(1), Answer::accepted(1));
    assert_eq!(site.journal[..4], [1, 0, 0, 0]);
    assert_eq!(site.journal[4..][..9], [2, 4, 8, 6, 4, 5, 6, 7, 8]);
    assert_ne!(site.areas.only_targets(), [2, 4, 8, 6, 4, 5, 6, 7, 8]);
    assert_eq!(site.back(1), Answer::accepted(1));
    assert_eq!(site.areas.only_targets(), [2, 4, 8, 6, 4, 5, 6, 7, 8]);
}

//! Seeded random numbers (splitmix64): the same seed gives the same images everywhere.

use crate::reference::limits::WIDEST;
use crate::table::most;

const LOWEST: i32 = i32::MIN;
const HIGHEST: i32 = i32::MAX;

/// Where signed operations turn, apart from 0: signs, counts of a shift, both ends.
pub const EDGES: [i32; 13] = [1, 2, 3, 31, 32, 33, -1, -1, -2, -7, HIGHEST, LOWEST, LOWEST];

#[derive(Clone)]
pub struct Random {
    state: u64,
}

impl Random {
    pub fn new(seed: u64) -> Random {
        Random { state: seed }
    }

    pub fn bits(&mut self) -> u64 {
        self.state = self.state.wrapping_add(0x9E37_79B9_7F4A_7C15);
        let mut mixed = self.state;
        mixed = (mixed ^ (mixed >> 30)).wrapping_mul(0xBF58_476D_1CE4_E5B9);
        mixed = (mixed ^ (mixed >> 27)).wrapping_mul(0x94D0_49BB_1331_11EB);
        mixed ^ (mixed >> 31)
    }

    /// A number below the bound, which is not 0.
    pub fn below(&mut self, bound: usize) -> usize {
        ((u128::from(self.bits()) * bound as u128) >> 64) as usize
    }

    pub fn between(&mut self, lowest: usize, highest: usize) -> usize {
        lowest + self.below(highest - lowest + 1)
    }

    /// True in so many of a hundred cases.
    pub fn percent(&mut self, percent: usize) -> bool {
        self.below(100) < percent
    }

    pub fn pick<'a, T>(&mut self, items: &'a [T]) -> &'a T {
        &items[self.below(items.len())]
    }

    /// An index that is often the first or the last.
    pub fn index(&mut self, count: usize) -> usize {
        match self.below(6) {
            0 => 0,
            1 => count - 1,
            _ => self.below(count),
        }
    }

    pub fn shuffle<T>(&mut self, items: &mut [T]) {
        for last in (1..items.len()).rev() {
            items.swap(last, self.below(last + 1));
        }
    }

    /// A small or an extreme value.
    pub fn edge(&mut self) -> u32 {
        self.pick(&EDGES).cast_unsigned()
    }

    /// A 32-bit value, often 0, a small or an extreme one.
    pub fn value(&mut self) -> u32 {
        match self.below(6) {
            0 | 1 => 0,
            2 | 3 => self.edge(),
            4 => 1 << self.below(32),
            _ => self.bits() as u32,
        }
    }

    /// A width, often the widest, a flag's or a valve position's.
    pub fn width(&mut self) -> u8 {
        match self.below(4) {
            0 => WIDEST,
            1 | 2 => *self.pick(&[1, 1, 2, 8, 10, 10, 16, 31]),
            _ => self.between(1, WIDEST.into()) as u8,
        }
    }

    /// A value of so many bits, often the least or the largest.
    pub fn fitting(&mut self, width: u8) -> u32 {
        let most = most(width);
        match self.below(6) {
            0 | 1 => 0,
            2 | 3 => most,
            4 => most - (self.below(3) as u32).min(most),
            _ => self.value() & most,
        }
    }

    /// A value of more bits than these, often the least such; no value has more than 32.
    pub fn too_large(&mut self, width: u8) -> Option<u32> {
        if width == WIDEST {
            return None;
        }
        let above = 1 << self.between(width.into(), 31);
        Some(match self.below(6) {
            0 | 1 => 1 << width,
            // One bit more, all bits set.
            2 => most(width + 1),
            3 => u32::MAX,
            // One bit above, the others within.
            4 => above | self.fitting(width),
            _ => above | self.bits() as u32,
        })
    }
}
